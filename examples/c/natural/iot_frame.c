/* A value is a frame of a sensor: AA 55, the payload's length in 1 byte, the payload, and the sum of the payload's bytes modulo 256.
 * Emits the payload of frames whose sum is right, and rejects others.
 *
 * s1 | hex:aa550301020306 -> 0 s1 | hex:010203
 * s1 | hex:aa550000 -> 0 s1 | hex:
 * s1 | hex:aa550301020307 -> reject 13
 * s1 | hex:aa5503010203 -> reject 12
 * s1 | hex:ab550301020306 -> reject 11
 * s1 | hex:aa -> reject 10 */
#include "klog.h"

#define HEADER 3
#define MAX_PAYLOAD 64

u64 transform(const u8 *value, u64 value_length, const u8 *key, u64 key_length, u64 nulls)
{
	if (value_length < HEADER + 1)
		return 10;
	if (value[0] != 0xaa || value[1] != 0x55)
		return 11;

	u8 length = value[2];

	if (length > MAX_PAYLOAD || value_length != HEADER + length + 1)
		return 12;

	u8 sum = 0;

	for (u8 i = 0; i < length; i++)
		sum += value[HEADER + i];
	if (sum != value[HEADER + length])
		return 13;
	return emit_value(0, value + HEADER, length);
}
