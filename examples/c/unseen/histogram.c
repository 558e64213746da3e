/* A value has up to 64 samples of two bytes, the high byte first. Emits how many of them lie in each eighth of the range, as eight
 * numbers of two bytes in the same order.
 *
 * k | hex:0000ffff20003fff -> 0 k | hex:00010002000000000000000000000001
 * k | hex: -> 0 k | hex:00000000000000000000000000000000
 * k | hex:000000 -> reject 1
 */
#include "klog.h"

#define BUCKETS 8

struct histogram {
	u16 count[BUCKETS];
};

static u16 swap16(u16 n)
{
	return n << 8 | n >> 8;
}

u64 transform(const u8 *value, u64 value_length, const u8 *key, u64 key_length, u64 nulls)
{
	struct histogram h = {0};
	u64 n = value_length / 2;

	if (value_length % 2 || n > 64)
		return 1;
	for (u64 i = 0; i < n; i++) {
		u16 sample = value[2 * i] << 8 | value[2 * i + 1];
		h.count[sample * BUCKETS / 65536]++;
	}
	for (int b = 0; b < BUCKETS; b++)
		h.count[b] = swap16(h.count[b]);
	return emit_value(0, &h, sizeof h);
}
