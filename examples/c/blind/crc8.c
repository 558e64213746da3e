/* Checks the ROM code of a 1-Wire device, a family, six bytes of a serial number and the CRC-8 of these seven. Thermometers (family 0x28)
 * go to output 1 and other devices to output 0, with the serial number as the key and the rest of the value as the value.
 *
 * k | \x02\x1c\xb8\x01\x00\x00\x00\xa2on -> 0 \x1c\xb8\x01\x00\x00\x00 | on
 * k | \x28\x00\x00\x00\x00\x00\x00\x1e21.5 -> 1 \x00\x00\x00\x00\x00\x00 | 21.5
 * k | \x28\x00\x00\x00\x00\x00\x00\x1f21.5 -> reject 11
 * k | \x00\x00\x00\x00\x00\x00\x00\x00on -> reject 12
 * k | \x28\x00 -> reject 10 */
#include "klog.h"

static u8 crc8(const u8 *bytes, u64 length)
{
	u8 crc = 0;

	for (u64 i = 0; i < length; i++) {
		crc ^= bytes[i];
		for (int bit = 0; bit < 8; bit++)
			crc = crc & 1 ? crc >> 1 ^ 0x8c : crc >> 1;
	}
	return crc;
}

u64 transform(const u8 *value, u64 value_length, const u8 *key, u64 key_length, u64 nulls)
{
	u64 output;

	if (value_length < 8)
		return 10;
	if (crc8(value, 7) != value[7])
		return 11;
	switch (value[0]) {
	case 0:
		return 12; /* a bus in short circuit reads as zeros */
	case 0x28:
		output = 1;
		break;
	default:
		output = 0;
	}
	return emit(output, value + 1, 6, value + 8, value_length - 8);
}
