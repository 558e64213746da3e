/* Unpacks a meter's readings: a first reading of two bytes, the high one first, and up to 32 signed bytes, each the change from the reading
 * before. All readings are emitted as two bytes each.
 *
 * k | \x00\x64\x01\xff -> 0 k | \x00\x64\x00\x65\x00\x64
 * k | \x10\x00 -> 0 k | \x10\x00
 * k | \x00\xff\x02\x80 -> 0 k | \x00\xff\x01\x01\x00\x81
 * k | \x00\x05\xfa -> reject 11
 * k | \xff\xff\x01 -> reject 11
 * k | \x01 -> reject 10 */
#include "klog.h"

#define MOST 32

static void put16(u8 *at, int n)
{
	at[0] = n >> 8;
	at[1] = n & 0xff;
}

u64 transform(const u8 *value, u64 value_length, const u8 *key, u64 key_length, u64 nulls)
{
	u8 readings[2 * (1 + MOST)];
	u64 count = 1;
	int reading;

	if (value_length < 2 || value_length > 2 + MOST)
		return 10;
	reading = value[0] << 8 | value[1];
	put16(readings, reading);
	for (u64 i = 2; i < value_length; i++) {
		reading += (signed char)value[i];
		if (reading < 0 || reading > 0xffff)
			return 11;
		put16(readings + 2 * count, reading);
		count++;
	}
	return emit_value(0, readings, 2 * count);
}
