/* A value is up to 64 hexadecimal digits. Emits the bytes that they are; anything else is rejected.
 *
 * k | 48656c6C6f -> 0 k | Hello
 * k | -> 0 k |
 * k | 4 -> reject 1
 * k | 4g -> reject 2 */
#include "klog.h"

static int digit(u8 c)
{
	if (c >= '0' && c <= '9')
		return c - '0';
	c |= 0x20;
	if (c >= 'a' && c <= 'f')
		return c - 'a' + 10;
	return -1;
}

u64 transform(const u8 *value, u64 value_length, const u8 *key, u64 key_length, u64 nulls)
{
	u8 bytes[32];

	if (value_length > 64 || value_length % 2)
		return 1;
	for (u64 i = 0; i < value_length; i += 2) {
		int high = digit(value[i]), low = digit(value[i + 1]);

		if (high < 0 || low < 0)
			return 2;
		bytes[i / 2] = high << 4 | low;
	}
	return emit_value(0, bytes, value_length / 2);
}
