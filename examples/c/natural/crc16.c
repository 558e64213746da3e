/* The last two bytes of a value of up to 34 are a CRC-16 (CCITT, big-endian) of those before. Others are rejected.
 *
 * k | 123456789\x29\xb1 -> 0 k | 123456789\x29\xb1
 * k | 123456789\x29\xb2 -> reject 2
 * k | 1 -> reject 1 */
#include "klog.h"

static u16 crc(const u8 *data, u64 length)
{
	u16 sum = 0xffff;

	for (u64 i = 0; i < length; i++) {
		sum ^= data[i] << 8;
		for (int bit = 0; bit < 8; bit++)
			sum = sum & 0x8000 ? sum << 1 ^ 0x1021 : sum << 1;
	}
	return sum;
}

u64 transform(const u8 *value, u64 value_length, const u8 *key, u64 key_length, u64 nulls)
{
	if (value_length < 2 || value_length > 34)
		return 1;
	u64 length = value_length - 2;
	if (crc(value, length) != (value[length] << 8 | value[length + 1]))
		return 2;
	return emit_record(0);
}
