/* Gives a record the date of its timestamp as key, as 2026-11-26.
 *
 * k | v at 0 -> 0 1970-01-01 | v
 * k | v at 951782400000 -> 0 2000-02-29 | v
 * k | v at 1767225599999 -> 0 2025-12-31 | v
 * k | v at 1795651200000 -> 0 2026-11-26 | v */
#include "klog.h"

static void digits(u8 *text, u64 number)
{
	text[0] = '0' + number / 10 % 10;
	text[1] = '0' + number % 10;
}

u64 transform(const u8 *value, u64 value_length, const u8 *key, u64 key_length, u64 nulls)
{
	u64 days = record_timestamp() / 86400000 + 719468;
	u64 era = days / 146097;
	u64 day_of_era = days % 146097;
	u64 year_of_era = (day_of_era - day_of_era / 1460 + day_of_era / 36524 - day_of_era / 146096) / 365;
	u64 day_of_year = day_of_era - (365 * year_of_era + year_of_era / 4 - year_of_era / 100);
	u64 month = (5 * day_of_year + 2) / 153;
	u64 day = day_of_year - (153 * month + 2) / 5 + 1;
	u64 year = year_of_era + era * 400;
	u8 date[10] = "0000-00-00";

	month = month < 10 ? month + 3 : month - 9;
	if (month <= 2)
		year++;
	digits(date, year / 100);
	digits(date + 2, year);
	digits(date + 5, month);
	digits(date + 8, day);
	return emit(0, date, sizeof date, value, value_length);
}
