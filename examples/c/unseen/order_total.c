/* A value is up to 16 prices as 12.50, separated by semicolons. Emits their sum, as such a price.
 *
 * k | 12.50;3.99 -> 0 k | 16.49
 * k | 0.05 -> 0 k | 0.05
 * k | 999.99;0.01;10.00 -> 0 k | 1010.00
 * k | 12.5 -> reject 11
 * k | 12.50;;1.00 -> reject 10
 * k | -> reject 10
 * k | a.00 -> reject 10 */
#include "klog.h"

static int is_digit(u8 c)
{
	return c >= '0' && c <= '9';
}

u64 transform(const u8 *value, u64 value_length, const u8 *key, u64 key_length, u64 nulls)
{
	u64 cents = 0, at = 0;

	for (int n = 0; n < 16; n++) {
		u64 whole = 0, digits = 0;

		while (at < value_length && is_digit(value[at]) && digits < 6) {
			whole = whole * 10 + (value[at] - '0');
			at++;
			digits++;
		}
		if (digits == 0)
			return 10;
		if (at + 3 > value_length || value[at] != '.' || !is_digit(value[at + 1]) || !is_digit(value[at + 2]))
			return 11;
		cents += whole * 100 + (value[at + 1] - '0') * 10 + (value[at + 2] - '0');
		at += 3;
		if (at == value_length)
			break;
		if (value[at] != ';')
			return 12;
		at++;
	}
	if (at != value_length)
		return 13;

	char text[16];
	int i = 16;

	text[--i] = '0' + cents % 10;
	cents /= 10;
	text[--i] = '0' + cents % 10;
	cents /= 10;
	text[--i] = '.';
	do {
		text[--i] = '0' + cents % 10;
		cents /= 10;
	} while (cents > 0 && i > 0);
	return emit_value(0, text + i, 16 - i);
}
