/* A key is a number of 12 bytes. Emits the record with the key in base64, 16 letters.
 *
 * \0\0\0\0\0\0\0\0\0\0\0\0 | v -> 0 AAAAAAAAAAAAAAAA | v
 * Hello, world | v -> 0 SGVsbG8sIHdvcmxk | v
 * \373\357\276\377\377\377\0\20\203\320\1\2 | v -> 0 ++++////ABCD0AEC | v
 * k | v -> reject 1 */
#include "klog.h"

static const u8 letters[] = "ABCDEFGHIJKLMNOPQRSTUVWXYZabcdefghijklmnopqrstuvwxyz0123456789+/";

u64 transform(const u8 *value, u64 value_length, const u8 *key, u64 key_length, u64 nulls)
{
	u8 text[16];

	if (key_length != 12)
		return 1;
	for (int i = 0; i < 4; i++) {
		u32 bits = key[3 * i] << 16 | key[3 * i + 1] << 8 | key[3 * i + 2];

		for (int j = 0; j < 4; j++)
			text[4 * i + j] = letters[bits >> (18 - 6 * j) & 63];
	}
	return emit(0, text, sizeof text, value, value_length);
}
