/* Checks the sum of a GPS receiver's GGA sentence and emits its latitude and longitude in millionths of a degree, south and west below 0.
 * What is no such sentence is rejected with 10, a wrong sum with 11, and a position that is missing or odd with 12.
 *
 * k | $GPGGA,123519,4807.038,N,01131.000,E,1,08,0.9,545.4,M,46.9,M,,\x2a47 -> 0 k | 48117300,11516666
 * k | $GPGGA,123519,4807.038,S,01131.000,E,1,08,0.9,545.4,M,46.9,M,,\x2a5A -> 0 k | -48117300,11516666
 * k | $GPGGA,123519,4807.038,N,01131.000,W,1,08,0.9,545.4,M,46.9,M,,\x2a55 -> 0 k | 48117300,-11516666
 * k | $GPGGA,123519,4807.038,N,01131.000,E,1,08,0.9,545.4,M,46.9,M,,\x2a48 -> reject 11
 * k | $GPGSV,1,1,00\x2a79 -> reject 10 */
#include "klog_parts.h"

#define LONGEST 82

static int hex_digit(u8 c)
{
	return c >= '0' && c <= '9' ? c - '0' : c >= 'A' && c <= 'F' ? c - 'A' + 10 : -1;
}

/* Degrees, two digits of minutes and their fraction, and in the next field the half of the globe. */
static int coordinate(u64 position, u64 degree_digits, char plus, char minus, int *result)
{
	struct span number = field(VALUE, ',', position), half = field(VALUE, ',', position + 1);
	u64 minutes_at = number.at + degree_digits, point = minutes_at + 2;
	u64 degrees = decimal(VALUE, number.at, degree_digits), minutes = decimal(VALUE, minutes_at, 2);
	u64 places = number.at + number.length - (point + 1); /* of a minute's fraction */
	char sign;

	if (!number.is_there || !half.is_there || half.length != 1 || !degrees || !minutes || !equals(VALUE, point, ".", 1))
		return 0;
	if (minutes > 60 || places < 1 || places > 5)
		return 0;

	u64 fraction = decimal(VALUE, point + 1, places);

	if (fraction-- == 0) /* decimal's results are one more than the number */
		return 0;
	for (; places < 5; places++)
		fraction *= 10;
	*result = (degrees - 1) * 1000000 + ((minutes - 1) * 100000 + fraction) / 6;
	load_part(&sign, half.at, 1, VALUE);
	if (sign == minus)
		*result = -*result;
	return sign == plus || sign == minus;
}

static char *put_int(char *out, int number)
{
	char digits[10];
	int n = 0;
	unsigned rest = number < 0 ? -number : number;

	if (number < 0)
		*out++ = '-';
	do
		digits[n++] = '0' + rest % 10;
	while (rest /= 10);
	while (n > 0)
		*out++ = digits[--n];
	return out;
}

u64 transform(const u8 *value, u64 value_length, const u8 *key, u64 key_length, u64 nulls)
{
	char text[24], *end = text;
	int latitude, longitude;
	u8 sum = 0;

	if (value_length < 10 || value_length > LONGEST || !starts_with(VALUE, "$GPGGA,") || value[value_length - 3] != '*')
		return 10;
	for (u64 i = 1; i < value_length - 3; i++)
		sum ^= value[i];
	if (hex_digit(value[value_length - 2]) != sum >> 4 || hex_digit(value[value_length - 1]) != (sum & 15))
		return 11;
	if (!coordinate(2, 2, 'N', 'S', &latitude) || !coordinate(4, 3, 'E', 'W', &longitude))
		return 12;
	end = put_int(end, latitude);
	*end++ = ',';
	end = put_int(end, longitude);
	return emit_value(0, text, end - text);
}
