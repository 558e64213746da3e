/* Emits how many words a value of up to 100 bytes has, as a decimal number.
 *
 * k | the quick brown fox -> 0 k | 4
 * k | one -> 0 k | 1
 * k | -> 0 k | 0
 * k | a b c d e f g h i j k l -> 0 k | 12
 * k | x*101 -> reject 1 */
#include "klog.h"

static u64 decimal(char *to, unsigned n)
{
	char digits[10];
	int count = 0;
	u64 length = 0;

	do {
		digits[count++] = '0' + n % 10;
		n /= 10;
	} while (n);
	while (count > 0)
		to[length++] = digits[--count];
	return length;
}

u64 transform(const u8 *value, u64 value_length, const u8 *key, u64 key_length, u64 nulls)
{
	char text[12];
	unsigned words = 0;
	int inside = 0;

	if (value_length > 100)
		return 1;
	for (u64 i = 0; i < value_length; i++) {
		if (value[i] == ' ') {
			inside = 0;
		} else if (!inside) {
			inside = 1;
			words++;
		}
	}
	return emit_value(0, text, decimal(text, words));
}
