/* A value begins with a time as 2026-11-26T12:34:56Z. Emits it as milliseconds since 1970, in 8 bytes, big-endian.
 *
 * k | 1970-01-01T00:00:00Z -> 0 k | hex:0000000000000000
 * k | 2026-11-26T12:34:56Z hello -> 0 k | hex:000001a217da0d80
 * k | 2026-13-26T12:34:56Z -> reject 12
 * k | 2026-11-26 12:34:56Z -> reject 11
 * k | 2026-11-26T12:34 -> reject 10 */
#include "klog.h"

static int two(const u8 *p)
{
	if (p[0] < '0' || p[0] > '9' || p[1] < '0' || p[1] > '9')
		return -1;
	return (p[0] - '0') * 10 + (p[1] - '0');
}

u64 transform(const u8 *value, u64 value_length, const u8 *key, u64 key_length, u64 nulls)
{
	static const u16 days_before[] = { 0, 31, 59, 90, 120, 151, 181, 212, 243, 273, 304, 334 };

	if (value_length < 20)
		return 10;
	if (value[4] != '-' || value[7] != '-' || value[10] != 'T' || value[13] != ':' || value[16] != ':' || value[19] != 'Z')
		return 11;

	int century = two(value), year = two(value + 2), month = two(value + 5), day = two(value + 8);
	int hour = two(value + 11), minute = two(value + 14), second = two(value + 17);

	if (century < 0 || year < 0 || month < 1 || month > 12 || day < 1 || day > 31 || hour < 0 || hour > 23 || minute < 0 || minute > 59 ||
	    second < 0 || second > 60)
		return 12;
	year += century * 100;
	if (year < 1970)
		return 12;

	u64 days = (u64)(year - 1970) * 365 + (year - 1969) / 4 - (year - 1901) / 100 + (year - 1601) / 400;

	days += days_before[month - 1] + day - 1;
	if (month > 2 && (year % 4 == 0 && (year % 100 != 0 || year % 400 == 0)))
		days++;

	u64 milliseconds = (((days * 24 + hour) * 60 + minute) * 60 + second) * 1000;
	u8 out[8];

	for (int i = 0; i < 8; i++)
		out[i] = milliseconds >> (56 - 8 * i);
	return emit_value(0, out, sizeof out);
}
