/* A value is a list of up to 8 words with spaces between them. Emits the words without those that came before.
 *
 * k | a b a c -> 0 k | a b c
 * k | one one one -> 0 k | one
 * k | x -> 0 k | x
 * k | ab a -> 0 k | ab a
 */
#include "klog.h"

u64 transform(const u8 *value, u64 value_length, const u8 *key, u64 key_length, u64 nulls)
{
	u8 out[64];
	u8 starts[8], lengths[8];
	u64 words = 0, n = 0, at = 0;

	if (value_length > 60)
		return 1;
	while (at < value_length && words < 8) {
		u64 start = at;
		while (at < value_length && value[at] != ' ')
			at++;
		u64 length = at - start;
		at++;
		int seen = 0;
		for (u64 w = 0; w < words; w++) {
			if (lengths[w] != length)
				continue;
			int same = 1;
			for (u64 i = 0; i < length; i++)
				if (value[starts[w] + i] != value[start + i])
					same = 0;
			if (same)
				seen = 1;
		}
		if (seen)
			continue;
		starts[words] = start;
		lengths[words++] = length;
		if (n)
			out[n++] = ' ';
		for (u64 i = 0; i < length; i++)
			out[n++] = value[start + i];
	}
	return emit_value(0, out, n);
}
