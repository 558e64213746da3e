/* Checks the CRC-16 of a Modbus frame, which follows it with the low byte first, and emits the frame without it: answers that report an
 * error (the function's top bit is set) to output 1, others to 0. A frame of a wrong length is rejected with 10, a wrong CRC with 11.
 *
 * k | 1234567897K -> 0 k | 123456789
 * k | 1234567897L -> reject 11
 * k | \x01\x03\x00\x00\x00\x0a\xc5\xcd -> 0 k | \x01\x03\x00\x00\x00\x0a
 * k | abc -> reject 10 */
#include "klog.h"

#define LEAST 4
#define MOST 256

static const u16 table[16] = {
	0x0000, 0xcc01, 0xd801, 0x1400, 0xf001, 0x3c00, 0x2800, 0xe401,
	0xa001, 0x6c00, 0x7800, 0xb401, 0x5000, 0x9c01, 0x8801, 0x4400,
};

/* Half a byte a step. */
static u16 crc16(const u8 *bytes, u64 length)
{
	u16 crc = 0xffff;

	while (length-- > 0) {
		u8 byte = *bytes++;

		crc = crc >> 4 ^ table[(crc ^ byte) & 15];
		crc = crc >> 4 ^ table[(crc ^ byte >> 4) & 15];
	}
	return crc;
}

u64 transform(const u8 *value, u64 value_length, const u8 *key, u64 key_length, u64 nulls)
{
	if (value_length < LEAST || value_length > MOST)
		return 10;

	u64 length = value_length - 2;
	u16 sent = value[length] | value[length + 1] << 8;

	if (crc16(value, length) != sent)
		return 11;
	return emit_value(value[1] & 0x80 ? 1 : 0, value, length);
}
