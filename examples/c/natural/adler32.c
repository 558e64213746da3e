/* The last four bytes of a value of up to 68 bytes are the Adler-32 sum of those before, big-endian. Emits those before where it is
 * right, and rejects others.
 *
 * k | abc\x02\x4d\x01\x27 -> 0 k | abc
 * k | hex:00000001 -> 0 k | hex:
 * k | abd\x02\x4d\x01\x27 -> reject 11
 * k | abc -> reject 10 */
#include "klog.h"

u64 transform(const u8 *value, u64 value_length, const u8 *key, u64 key_length, u64 nulls)
{
	if (value_length < 4 || value_length > 68)
		return 10;

	u64 length = value_length - 4;
	u32 a = 1, b = 0;

	for (u64 i = 0; i < length; i++) {
		a = (a + value[i]) % 65521;
		b = (b + a) % 65521;
	}

	const u8 *end = value + length;
	u32 wanted = (u32)end[0] << 24 | (u32)end[1] << 16 | (u32)end[2] << 8 | end[3];

	if ((b << 16 | a) != wanted)
		return 11;
	return emit_value(0, value, length);
}
