/* Checks the Fletcher-16 sum in the last two bytes of a frame of at most 258 bytes, the second sum first, and emits the frame without
 * it. A frame of a wrong length is rejected with 10, a wrong sum with 11.
 *
 * k | aaa -> 0 k | a
 * k | !"dC -> 0 k | !"
 * k | abcde\xc8\xf0 -> 0 k | abcde
 * k | \x00\x00 -> 0 k |
 * k | aab -> reject 11
 * k | a -> reject 10 */
#include "klog.h"

#define MOST 256

static u16 fletcher16(const u8 *bytes, u64 length)
{
	unsigned a = 0, b = 0;

	for (u64 i = 0; i < length; i++) {
		a = (a + bytes[i]) % 255;
		b = (b + a) % 255;
	}
	return b << 8 | a;
}

u64 transform(const u8 *value, u64 value_length, const u8 *key, u64 key_length, u64 nulls)
{
	if (value_length < 2 || value_length > MOST + 2)
		return 10;

	u64 length = value_length - 2;
	u16 sum = value[length] << 8 | value[length + 1];

	if (fletcher16(value, length) != sum)
		return 11;
	return emit_value(0, value, length);
}
