/* Compares the time at which a value begins, as 2024-02-29T12:34:56Z, with the record's timestamp: over a day old is rejected with 20,
 * over five minutes in the future goes to output 1, the rest to output 0. A value that begins with no such time is rejected with 10.
 * The examples have a timestamp of at most a minute after 1970 began.
 *
 * k | 1970-01-01T00:00:00Z boot -> 0 k | 1970-01-01T00:00:00Z boot
 * k | 1970-01-01T00:04:00Z boot -> 0 k | 1970-01-01T00:04:00Z boot
 * k | 2024-02-29T12:00:00Z login -> 1 k | 2024-02-29T12:00:00Z login
 * k | 1969-12-30T00:00:00Z old -> reject 20
 * k | 2023-02-29T12:00:00Z login -> reject 10
 * k | 2023-01-01 12:00:00Z login -> reject 10
 * k | yesterday -> reject 10 */
#include "klog.h"

#define DAY 86400000LL
#define MINUTE 60000LL

typedef long long i64;

static int number(const u8 *text, int digits)
{
	int result = 0;

	for (int i = 0; i < digits; i++) {
		if (text[i] < '0' || text[i] > '9')
			return -1;
		result = result * 10 + (text[i] - '0');
	}
	return result;
}

static int days_in_month(int year, int month)
{
	static const u8 days[12] = {31, 28, 31, 30, 31, 30, 31, 31, 30, 31, 30, 31};
	int leap = (year % 4 == 0 && year % 100 != 0) || year % 400 == 0;

	return days[month - 1] + (month == 2 && leap);
}

/* Days since 1970-01-01, with years that begin in March. */
static i64 days_since_epoch(int year, int month, int day)
{
	year -= month <= 2;

	int era = (year >= 0 ? year : year - 399) / 400;
	int year_of_era = year - era * 400;
	int day_of_year = (153 * (month + (month > 2 ? -3 : 9)) + 2) / 5 + day - 1;
	int day_of_era = year_of_era * 365 + year_of_era / 4 - year_of_era / 100 + day_of_year;

	return (i64)era * 146097 + day_of_era - 719468;
}

u64 transform(const u8 *value, u64 value_length, const u8 *key, u64 key_length, u64 nulls)
{
	if (value_length < 20 || value[4] != '-' || value[7] != '-' || value[10] != 'T' || value[13] != ':' || value[16] != ':' ||
	    value[19] != 'Z')
		return 10;

	int year = number(value, 4), month = number(value + 5, 2), day = number(value + 8, 2);
	int hour = number(value + 11, 2), minute = number(value + 14, 2), second = number(value + 17, 2);

	if (year < 0 || month < 1 || month > 12 || day < 1 || day > days_in_month(year, month))
		return 10;
	if (hour < 0 || hour > 23 || minute < 0 || minute > 59 || second < 0 || second > 60)
		return 10;

	i64 then = days_since_epoch(year, month, day) * DAY + (hour * 3600 + minute * 60 + second) * 1000LL;
	i64 age = (i64)record_timestamp() - then;

	if (age > DAY)
		return 20;
	return emit_record(age < -5 * MINUTE ? 1 : 0);
}
