/* Writes each run of equal bytes in a value as the byte and how often it stands there. Values of over 120 bytes are rejected with 10.
 *
 * k | aaabcc -> 0 k | a3b1c2
 * k | wwwwwwwwwwww -> 0 k | w12
 * k | abc -> 0 k | a1b1c1
 * k | x -> 0 k | x1
 * k | -> 0 k | */
#include "klog.h"

#define MOST 120

static u64 put_count(u8 *out, unsigned count)
{
	u64 length = 0;

	if (count >= 100)
		out[length++] = '0' + count / 100;
	if (count >= 10)
		out[length++] = '0' + count / 10 % 10;
	out[length++] = '0' + count % 10;
	return length;
}

u64 transform(const u8 *value, u64 value_length, const u8 *key, u64 key_length, u64 nulls)
{
	u8 out[2 * MOST];
	u64 length = 0, begin = 0;

	if (value_length > MOST)
		return 10;
	while (begin < value_length) {
		u64 end = begin + 1;

		while (end < value_length && value[end] == value[begin])
			end++;
		out[length++] = value[begin];
		length += put_count(out + length, end - begin);
		begin = end;
	}
	return emit_value(0, out, length);
}
