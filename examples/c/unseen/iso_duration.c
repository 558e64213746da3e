/* A value is a duration as PT1H30M15S, in which each of the three parts may be missing. Emits it in seconds; one that is
 * none is rejected with code 3.
 *
 * k | PT1H30M15S -> 0 k | 5415
 * k | PT45M -> 0 k | 2700
 * k | PT0S -> 0 k | 0
 * k | PT100H -> 0 k | 360000
 * k | P1D -> reject 3
 * k | PT -> reject 3
 * k | PT5 -> reject 3
 */
#include "klog.h"

static int is_digit(u8 c)
{
	return c >= '0' && c <= '9';
}

u64 transform(const u8 *value, u64 value_length, const u8 *key, u64 key_length, u64 nulls)
{
	u64 total = 0, parts = 0;
	const u8 *p = value + 2, *end = value + value_length;

	if (value_length < 3 || value_length > 24 || value[0] != 'P' || value[1] != 'T')
		return 3;
	while (p < end) {
		u64 n = 0, digits = 0;
		while (p < end && is_digit(*p)) {
			n = n * 10 + (*p - '0');
			digits++;
			p++;
		}
		if (p == end || digits == 0 || digits > 6)
			return 3;
		if (*p == 'H')
			total += n * 3600;
		else if (*p == 'M')
			total += n * 60;
		else if (*p == 'S')
			total += n;
		else
			return 3;
		p++;
		parts++;
	}
	if (parts == 0)
		return 3;

	char text[24];
	int at = sizeof text;
	do {
		text[--at] = '0' + total % 10;
		total /= 10;
	} while (total > 0);
	return emit_value(0, text + at, sizeof text - at);
}
