/* Turns the count of a thermistor's converter, two bytes with the high one first, into degrees with one decimal, on straight lines between
 * the points of a calibration curve.
 *
 * k | \x00\xc8 -> 0 k | 125.0
 * k | \x06\x40 -> 0 k | 37.5
 * k | \x0a\xf0 -> 0 k | 0.0
 * k | \x0c\x4e -> 0 k | -12.5
 * k | \x00\x64 -> reject 11
 * k | a -> reject 10 */
#include "klog.h"

struct point {
	int count, tenths;
};

static const struct point curve[] = {{200, 1250}, {600, 850}, {1200, 500}, {2000, 250}, {2800, 0}, {3500, -250}, {3900, -400}};

#define POINTS (sizeof curve / sizeof curve[0])

static u64 write_tenths(char *text, int tenths)
{
	u64 length = 0;

	if (tenths < 0) {
		text[length++] = '-';
		tenths = -tenths;
	}
	if (tenths >= 1000)
		text[length++] = '0' + tenths / 1000;
	if (tenths >= 100)
		text[length++] = '0' + tenths / 100 % 10;
	text[length++] = '0' + tenths / 10 % 10;
	text[length++] = '.';
	text[length++] = '0' + tenths % 10;
	return length;
}

u64 transform(const u8 *value, u64 value_length, const u8 *key, u64 key_length, u64 nulls)
{
	char text[8];
	int count, tenths;
	u64 i = 1;

	if (value_length != 2)
		return 10;
	count = value[0] << 8 | value[1];
	if (count < curve[0].count || count > curve[POINTS - 1].count)
		return 11;
	while (count > curve[i].count)
		i++;

	const struct point *a = &curve[i - 1], *b = &curve[i];

	tenths = a->tenths + (count - a->count) * (b->tenths - a->tenths) / (b->count - a->count);
	return emit_value(0, text, write_tenths(text, tenths));
}
