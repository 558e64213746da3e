/* A value is two dates as 2026-11-26,2026-12-24. Emits the days from the first to the second as a decimal number.
 *
 * k | 2026-11-26,2026-12-24 -> 0 k | 28
 * k | 2024-02-28,2024-03-01 -> 0 k | 2
 * k | 2026-01-01,2025-01-01 -> 0 k | -365
 * k | 2026-01-01,2026-01-01 -> 0 k | 0
 * k | 2026-13-01,2026-01-01 -> reject 2
 * k | 2026-11-26 -> reject 1 */
#include "klog.h"

static int number(const u8 *p, int digits)
{
	int n = 0;

	for (int i = 0; i < digits; i++) {
		if (p[i] < '0' || p[i] > '9')
			return -1;
		n = n * 10 + (p[i] - '0');
	}
	return n;
}

/* The day's number since 0000-03-01, or -1. */
static int day_of(const u8 *p)
{
	int year = number(p, 4), month = number(p + 5, 2), day = number(p + 8, 2);

	if (year < 1 || month < 1 || month > 12 || day < 1 || day > 31 || p[4] != '-' || p[7] != '-')
		return -1;
	if (month < 3) {
		month += 12;
		year--;
	}
	return 365 * year + year / 4 - year / 100 + year / 400 + (153 * (month - 3) + 2) / 5 + day - 1;
}

u64 transform(const u8 *value, u64 value_length, const u8 *key, u64 key_length, u64 nulls)
{
	if (value_length != 21 || value[10] != ',')
		return 1;

	int from = day_of(value), to = day_of(value + 11);

	if (from < 0 || to < 0)
		return 2;

	int days = to - from;
	u32 left = days < 0 ? -days : days;
	char text[12];
	int at = sizeof(text);

	do {
		text[--at] = '0' + left % 10;
		left /= 10;
	} while (left);
	if (days < 0)
		text[--at] = '-';
	return emit_value(0, text + at, sizeof(text) - at);
}
