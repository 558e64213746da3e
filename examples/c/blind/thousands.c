/* Writes an amount in cents, up to 15 digits with or without a minus, as people read it: with a point and commas between thousands.
 *
 * k | 123456 -> 0 k | 1,234.56
 * k | 5 -> 0 k | 0.05
 * k | 99999 -> 0 k | 999.99
 * k | -100000000 -> 0 k | -1,000,000.00
 * k | 12x -> reject 11
 * k | - -> reject 10
 * k | -> reject 10 */
#include "klog_parts.h"

u64 transform(const u8 *value, u64 value_length, const u8 *key, u64 key_length, u64 nulls)
{
	char text[32];
	u64 at = sizeof text, cents;
	int negative, digits = 0;

	if (value_length == 0)
		return 10;
	negative = value[0] == '-';
	if (value_length - negative < 1 || value_length - negative > 15)
		return 10;
	cents = decimal(VALUE, negative, value_length - negative);
	if (cents == 0)
		return 11;
	cents--;

	text[--at] = '0' + cents % 10;
	text[--at] = '0' + cents / 10 % 10;
	text[--at] = '.';
	cents /= 100;
	do {
		if (digits > 0 && digits % 3 == 0)
			text[--at] = ',';
		text[--at] = '0' + cents % 10;
		cents /= 10;
		digits++;
	} while (cents > 0);
	if (negative)
		text[--at] = '-';
	return emit_value(0, text + at, sizeof text - at);
}
