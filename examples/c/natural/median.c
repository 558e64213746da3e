/* A value is nine readings of 2 bytes, signed, little-endian. Emits their median, in 2 bytes.
 *
 * k | hex:010002000300040005000600070008000900 -> 0 k | hex:0500
 * k | hex:ffff0200fdff04000500fbff070008000900 -> 0 k | hex:0400
 * k | hex:0100 -> reject 10 */
#include "klog.h"

static void swap(short *a, short *b)
{
	short t = *a;

	*a = *b;
	*b = t;
}

u64 transform(const u8 *value, u64 value_length, const u8 *key, u64 key_length, u64 nulls)
{
	short readings[9];

	if (value_length != sizeof readings)
		return 10;
	for (int i = 0; i < 9; i++)
		readings[i] = (short)(value[2 * i] | value[2 * i + 1] << 8);
	for (int i = 0; i < 8; i++)
		for (int j = 0; j < 8 - i; j++)
			if (readings[j] > readings[j + 1])
				swap(&readings[j], &readings[j + 1]);
	return emit_value(0, &readings[4], 2);
}
