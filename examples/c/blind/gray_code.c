/* Converts a reading of a 12-bit rotary encoder, a Gray code in two bytes (the high one first), to tenths of a degree, in two
 * bytes as well.
 *
 * vane | hex:0000 -> 0 vane | hex:0000
 * vane | hex:0600 -> 0 vane | hex:0384
 * vane | hex:0c00 -> 0 vane | hex:0708
 * vane | hex:0800 -> 0 vane | hex:0e0f
 * vane | hex:1000 -> reject 30
 * vane | hex:00 -> reject 30 */
#include "klog.h"

u64 transform(const u8 *value, u64 value_length, const u8 *key, u64 key_length, u64 nulls)
{
	if (value_length != 2 || value[0] >= 0x10)
		return 30;

	u32 position = value[0] << 8 | value[1];

	position ^= position >> 8;
	position ^= position >> 4;
	position ^= position >> 2;
	position ^= position >> 1;

	u32 angle = position * 3600 / 4096;
	u8 out[2] = {angle >> 8, angle & 0xff};

	return emit_value(0, out, sizeof(out));
}
