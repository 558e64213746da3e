/* Writes a key of 8 bytes as 16 hexadecimal digits.
 *
 * \0\1\2\3\376\377ab | v -> 0 00010203feff6162 | v
 * k | v -> reject 1 */
#include "klog.h"

static u8 digit(u8 n)
{
	return n < 10 ? '0' + n : 'a' + n - 10;
}

u64 transform(const u8 *value, u64 value_length, const u8 *key, u64 key_length, u64 nulls)
{
	u8 text[16];

	if (key_length != 8)
		return 1;
	for (int i = 0; i < 8; i++) {
		text[2 * i] = digit(key[i] >> 4);
		text[2 * i + 1] = digit(key[i] & 15);
	}
	return emit(0, text, sizeof text, value, value_length);
}
