/* A key is 16 bytes. Writes it as a UUID in text, as 00112233-4455-6677-8899-aabbccddeeff.
 *
 * hex:00112233445566778899aabbccddeeff | v -> 0 00112233-4455-6677-8899-aabbccddeeff | v
 * hex:00 | v -> reject 10
 * null | v -> reject 10 */
#include "klog.h"

static const char digits[] = "0123456789abcdef";

u64 transform(const u8 *value, u64 value_length, const u8 *key, u64 key_length, u64 nulls)
{
	char text[36];
	char *to = text;

	if (key_length != 16)
		return 10;
	for (int i = 0; i < 16; i++) {
		if (i == 4 || i == 6 || i == 8 || i == 10)
			*to++ = '-';
		*to++ = digits[key[i] >> 4];
		*to++ = digits[key[i] & 15];
	}
	return emit(0, text, to - text, value, value_length);
}
