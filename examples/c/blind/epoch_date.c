/* Writes the time with which a record begins, ten digits of seconds since 1970, as a date and a time of ISO 8601. The rest of the value
 * stays as it is.
 *
 * k | 1700000000,21.5 -> 0 k | 2023-11-14T22:13:20Z,21.5
 * k | 0000000000 -> 0 k | 1970-01-01T00:00:00Z
 * k | 1709164800 leap -> 0 k | 2024-02-29T00:00:00Z leap
 * k | 0951782399 -> 0 k | 2000-02-28T23:59:59Z
 * k | 17000 -> reject 10
 * k | 17000000xx -> reject 10 */
#include "klog_parts.h"

struct date {
	u32 year, month, day;
};

/* The civil calendar of days since 1970-01-01, counted in years that begin in March. */
static struct date date_of(u32 days)
{
	struct date date;

	days += 719468;

	u32 era = days / 146097;
	u32 day = days % 146097;
	u32 year = (day - day / 1460 + day / 36524 - day / 146096) / 365;
	u32 day_of_year = day - (365 * year + year / 4 - year / 100);
	u32 month = (5 * day_of_year + 2) / 153;

	date.day = day_of_year - (153 * month + 2) / 5 + 1;
	date.month = month < 10 ? month + 3 : month - 9;
	date.year = era * 400 + year + (date.month <= 2);
	return date;
}

static char *put2(char *at, u32 n, char after)
{
	*at++ = '0' + n / 10 % 10;
	*at++ = '0' + n % 10;
	if (after)
		*at++ = after;
	return at;
}

u64 transform(const u8 *value, u64 value_length, const u8 *key, u64 key_length, u64 nulls)
{
	char text[20], *at = text;
	u64 seconds = decimal(VALUE, 0, 10);
	struct date date;
	u32 in_day;

	if (seconds == 0)
		return 10;
	seconds--;
	date = date_of(seconds / 86400);
	in_day = seconds % 86400;
	at = put2(at, date.year / 100, 0);
	at = put2(at, date.year % 100, '-');
	at = put2(at, date.month, '-');
	at = put2(at, date.day, 'T');
	at = put2(at, in_day / 3600, ':');
	at = put2(at, in_day / 60 % 60, ':');
	at = put2(at, in_day % 60, 'Z');
	return emit_changed(0, 0, 10, text, at - text);
}
