/* A value is 1 to 32 samples of 2 bytes, signed, big-endian. Emits the greatest and the place at which it first stands, as 2 bytes and 1.
 *
 * k | hex:0001fffe0005 -> 0 k | hex:000502
 * k | hex:ffffffff8000 -> 0 k | hex:ffff00
 * k | hex:7fff -> 0 k | hex:7fff00
 * k | hex:00 -> reject 1
 * k | -> reject 1 */
#include "klog.h"

struct peak {
	short height;
	u8 place;
};

static short sample(const u8 *p)
{
	return (short)(p[0] << 8 | p[1]);
}

u64 transform(const u8 *value, u64 value_length, const u8 *key, u64 key_length, u64 nulls)
{
	u64 count = value_length / 2;

	if (count < 1 || count > 32 || value_length % 2)
		return 1;

	struct peak peak = {sample(value), 0};

	for (u64 i = 1; i < count; i++) {
		short s = sample(value + 2 * i);

		if (s > peak.height) {
			peak.height = s;
			peak.place = i;
		}
	}

	u8 out[3] = {(u16)peak.height >> 8, peak.height, peak.place};

	return emit_value(0, out, 3);
}
