/* A value is a temperature in degrees Celsius with one decimal, as -12.5. Emits it in degrees Fahrenheit, with one decimal, rounded
 * towards zero.
 *
 * k | 100.0 -> 0 k | 212.0
 * k | -40.0 -> 0 k | -40.0
 * k | 21.5 -> 0 k | 70.7
 * k | -17.9 -> 0 k | -0.2
 * k | 7 -> reject 10
 * k | abc.d -> reject 10
 * k | 1000.0 -> reject 10 */
#include "klog.h"

u64 transform(const u8 *value, u64 value_length, const u8 *key, u64 key_length, u64 nulls)
{
	u64 at = 0;
	int negative = 0, tenths = 0;

	if (value_length < 3 || value_length > 6)
		return 10;
	if (value[0] == '-') {
		negative = 1;
		at = 1;
	}
	if (value_length - at > 5 || value_length - at < 3)
		return 10;
	for (; at < value_length; at++) {
		if (at == value_length - 2) {
			if (value[at] != '.')
				return 10;
			continue;
		}
		if (value[at] < '0' || value[at] > '9')
			return 10;
		tenths = tenths * 10 + value[at] - '0';
	}
	if (negative)
		tenths = -tenths;

	int fahrenheit = tenths * 9 / 5 + 320;
	char text[8];
	int n = sizeof text;
	int rest = fahrenheit < 0 ? -fahrenheit : fahrenheit;

	text[--n] = '0' + rest % 10;
	text[--n] = '.';
	rest /= 10;
	do {
		text[--n] = '0' + rest % 10;
		rest /= 10;
	} while (rest);
	if (fahrenheit < 0)
		text[--n] = '-';
	return emit_value(0, text + n, sizeof text - n);
}
