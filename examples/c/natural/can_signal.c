/* A value is a frame of a CAN bus: an identifier of 4 bytes, little-endian, the length of the data in 1 byte, and up to 8 bytes. Of the
 * frames 0x123 the bits 11 to 23 are a speed, a signed number in tenths: those of more than 50.0 or less than -50.0 go to output 1,
 * others to output 0. Other frames are dropped.
 *
 * k | hex:2301000003001000 -> 0 k | hex:2301000003001000
 * k | hex:2301000003005010 -> 1 k | hex:2301000003005010
 * k | hex:23010000030000ff -> 0 k | hex:23010000030000ff
 * k | hex:23010000030000b0 -> 1 k | hex:23010000030000b0
 * k | hex:240100000100 -> nothing
 * k | hex:2301000004000000 -> reject 10
 * k | hex:230100000200ff -> reject 11 */
#include "klog.h"

static long long bits(u64 data, int from, int count)
{
	return (long long)(data << (64 - from - count)) >> (64 - count);
}

u64 transform(const u8 *value, u64 value_length, const u8 *key, u64 key_length, u64 nulls)
{
	u64 data = 0;

	if (value_length < 5 || value[4] > 8 || value_length != 5 + (u64)value[4])
		return 10;

	u32 id = value[0] | value[1] << 8 | value[2] << 16 | (u32)value[3] << 24;

	if (id != 0x123)
		return 0;
	if (value[4] < 3)
		return 11;
	for (int i = 0; i < value[4]; i++)
		data |= (u64)value[5 + i] << 8 * i;

	long long speed = bits(data, 11, 13);

	return emit_record(speed > 500 || speed < -500);
}
