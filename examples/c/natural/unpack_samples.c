/* A value is up to 48 bytes of samples of 12 bits, two in three bytes, the first in the high bits. Emits each as 2 bytes,
 * big-endian.
 *
 * k | hex:abcdef -> 0 k | hex:0abc0def
 * k | hex:123456789abc -> 0 k | hex:0123045607890abc
 * k | hex:1234 -> reject 10
 * k | null -> 0 k | hex: */
#include "klog.h"

u64 transform(const u8 *value, u64 value_length, const u8 *key, u64 key_length, u64 nulls)
{
	u8 out[64];
	u64 pairs = value_length / 3;

	if (value_length > 48 || value_length != pairs * 3)
		return 10;
	for (u64 i = 0; i < pairs; i++) {
		const u8 *in = value + 3 * i;
		u16 first = in[0] << 4 | in[1] >> 4;
		u16 second = (in[1] & 15) << 8 | in[2];

		out[4 * i] = first >> 8;
		out[4 * i + 1] = first;
		out[4 * i + 2] = second >> 8;
		out[4 * i + 3] = second;
	}
	return emit_value(0, out, 4 * pairs);
}
