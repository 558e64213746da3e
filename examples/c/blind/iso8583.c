/* Reads the head of an ISO 8583 message, a type of four digits and a bitmap of the fields 1 to 64: authorizations go to output 0, financial
 * messages to 1 and reversals to 2, with the type as the key and the list of the fields as the value. Fields 2 and 4 must be there.
 *
 * k | 0100\x70\x00\x00\x00\x00\x00\x00\x00rest -> 0 0100 | 2,3,4
 * k | 0200\x50\x20\x00\x00\x00\x00\x00\x00 -> 1 0200 | 2,4,11
 * k | 0420\x50\x00\x00\x00\x00\x00\x00\x01 -> 2 0420 | 2,4,64
 * k | 0100\x60\x00\x00\x00\x00\x00\x00\x00 -> reject 12
 * k | 0800\x50\x00\x00\x00\x00\x00\x00\x00 -> reject 11
 * k | 0100 -> reject 10 */
#include "klog.h"

static int is_digit(u8 c)
{
	return c >= '0' && c <= '9';
}

static int has_field(u64 bitmap, u32 number)
{
	return bitmap >> (64 - number) & 1;
}

u64 transform(const u8 *value, u64 value_length, const u8 *key, u64 key_length, u64 nulls)
{
	char list[192];
	u64 bitmap = 0, length = 0, output;

	if (value_length < 12 || value[0] != '0' || !is_digit(value[2]) || !is_digit(value[3]))
		return 10;
	switch (value[1]) {
	case '1': output = 0; break;
	case '2': output = 1; break;
	case '4': output = 2; break;
	default: return 11;
	}
	for (int i = 0; i < 8; i++)
		bitmap = bitmap << 8 | value[4 + i];
	if (!has_field(bitmap, 2) || !has_field(bitmap, 4))
		return 12;
	for (u32 number = 1; number <= 64; number++) {
		if (!has_field(bitmap, number))
			continue;
		if (length > 0)
			list[length++] = ',';
		if (number >= 10)
			list[length++] = '0' + number / 10;
		list[length++] = '0' + number % 10;
	}
	return emit(output, value, 4, list, length);
}
