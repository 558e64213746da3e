/* Converts a temperature in degrees Celsius, with a sign and at most one digit after the point, to degrees Fahrenheit with one such
 * digit, rounded half away from zero. What is no such number, or has over four digits before the point, is rejected with 10.
 *
 * k | -12.5 -> 0 k | 9.5
 * k | 21.3 -> 0 k | 70.3
 * k | -40 -> 0 k | -40.0
 * k | +0.1 -> 0 k | 32.2
 * k | -18 -> 0 k | -0.4
 * k | -17.8 -> 0 k | 0.0
 * k | 1.25 -> reject 10
 * k | warm -> reject 10
 * k | - -> reject 10 */
#include "klog.h"

static u64 put_tenths(char *out, int tenths)
{
	char digits[8];
	u64 n = 0, length = 0;
	unsigned rest = tenths < 0 ? -tenths : tenths;

	if (tenths < 0)
		out[length++] = '-';
	digits[n++] = '0' + rest % 10;
	digits[n++] = '.';
	rest /= 10;
	do {
		digits[n++] = '0' + rest % 10;
		rest /= 10;
	} while (rest > 0);
	while (n > 0)
		out[length++] = digits[--n];
	return length;
}

u64 transform(const u8 *value, u64 value_length, const u8 *key, u64 key_length, u64 nulls)
{
	u64 at = 0, start;
	int tenths = 0, negative = 0;
	char text[16];

	if (value_length > 0 && (value[0] == '-' || value[0] == '+')) {
		negative = value[0] == '-';
		at = 1;
	}
	start = at;
	while (at < value_length && value[at] >= '0' && value[at] <= '9') {
		if (at - start == 4)
			return 10;
		tenths = tenths * 10 + (value[at++] - '0');
	}
	if (at == start)
		return 10;
	tenths *= 10;
	if (at + 2 == value_length && value[at] == '.' && value[at + 1] >= '0' && value[at + 1] <= '9') {
		tenths += value[at + 1] - '0';
		at += 2;
	}
	if (at != value_length)
		return 10;
	if (negative)
		tenths = -tenths;

	int fahrenheit = (tenths * 9 + (tenths < 0 ? -2 : 2)) / 5 + 320;

	return emit_value(0, text, put_tenths(text, fahrenheit));
}
