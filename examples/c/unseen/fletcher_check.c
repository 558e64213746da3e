/* The last two bytes of a value of 2 to 66 bytes are the Fletcher-16 sum of those before, big-endian. Emits those before where it is right,
 * and rejects others.
 *
 * k | abcde\xc8\xf0 -> 0 k | abcde
 * k | hex:0000 -> 0 k |
 * k | abcde\xc8\xf1 -> reject 2
 * k | a -> reject 1 */
#include "klog.h"

static u16 fletcher(const u8 *data, u64 length)
{
	u32 a = 0, b = 0;

	while (length--) {
		a = (a + *data++) % 255;
		b = (b + a) % 255;
	}
	return b << 8 | a;
}

u64 transform(const u8 *value, u64 value_length, const u8 *key, u64 key_length, u64 nulls)
{
	if (value_length < 2 || value_length > 66)
		return 1;

	u64 n = value_length - 2;
	u16 want = value[n] << 8 | value[n + 1];

	if (fletcher(value, n) != want)
		return 2;
	return emit_value(0, value, n);
}
