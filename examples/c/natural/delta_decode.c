/* A value is a number of 4 bytes, little-endian, and up to 20 signed differences of 1 byte. Emits the numbers, each the one before and
 * its difference, as 4 bytes each, little-endian.
 *
 * k | hex:0a00000001ff -> 0 k | hex:0a0000000b0000000a000000
 * k | hex:0000000080 -> 0 k | hex:0000000080ffffff
 * k | hex:01020304 -> 0 k | hex:01020304
 * k | hex:010203 -> reject 10 */
#include "klog.h"

u64 transform(const u8 *value, u64 value_length, const u8 *key, u64 key_length, u64 nulls)
{
	u32 numbers[21];
	const signed char *deltas = (const signed char *)value + 4;

	if (value_length < 4 || value_length > 24)
		return 10;

	u64 count = value_length - 4;

	memcpy(numbers, value, 4);
	for (u64 i = 0; i < count; i++)
		numbers[i + 1] = numbers[i] + deltas[i];
	return emit_value(0, numbers, (count + 1) * sizeof numbers[0]);
}
