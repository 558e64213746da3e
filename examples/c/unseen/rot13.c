/* Emits a value of up to 64 bytes in ROT13.
 *
 * k | Hello, World! -> 0 k | Uryyb, Jbeyq!
 * k | AZaz09 -> 0 k | NMnm09
 * k | -> 0 k |
 * k | a*65 -> reject 1 */
#include "klog.h"

static u8 rotated(u8 c, u8 first)
{
	return first + (c - first + 13) % 26;
}

u64 transform(const u8 *value, u64 value_length, const u8 *key, u64 key_length, u64 nulls)
{
	u8 out[64];

	if (value_length > sizeof(out))
		return 1;
	for (u64 i = 0; i < value_length; i++) {
		u8 c = value[i];

		if (c >= 'a' && c <= 'z')
			out[i] = rotated(c, 'a');
		else if (c >= 'A' && c <= 'Z')
			out[i] = rotated(c, 'A');
		else
			out[i] = c;
	}
	return emit_value(0, out, value_length);
}
