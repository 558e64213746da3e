/* A value is a time of the day as 9:05, 09:05 or 09:05:30. Emits it as seconds since midnight, in 4 bytes, big-endian.
 *
 * k | 9:05 -> 0 k | hex:00007fbc
 * k | 09:05 -> 0 k | hex:00007fbc
 * k | 23:59:59 -> 0 k | hex:0001517f
 * k | 24:00 -> reject 2
 * k | 9:5 -> reject 1
 * k | 9:050 -> reject 1
 * k | noon -> reject 1 */
#include "klog.h"

static int two_digits(const u8 *p, const u8 *end)
{
	if (end - p < 2)
		return -1;
	if (p[0] < '0' || p[0] > '9' || p[1] < '0' || p[1] > '9')
		return -1;
	return (p[0] - '0') * 10 + p[1] - '0';
}

u64 transform(const u8 *value, u64 value_length, const u8 *key, u64 key_length, u64 nulls)
{
	const u8 *p = value, *end = value + value_length;
	int hours, minutes, seconds = 0;

	if (end - p >= 2 && p[1] == ':') {
		if (p[0] < '0' || p[0] > '9')
			return 1;
		hours = p[0] - '0';
		p += 1;
	} else {
		hours = two_digits(p, end);
		if (hours < 0)
			return 1;
		p += 2;
	}
	if (p == end || *p != ':')
		return 1;
	p++;
	minutes = two_digits(p, end);
	if (minutes < 0)
		return 1;
	p += 2;
	if (p != end) {
		if (*p != ':')
			return 1;
		p++;
		seconds = two_digits(p, end);
		if (seconds < 0 || end - p != 2)
			return 1;
	}
	if (hours > 23 || minutes > 59 || seconds > 59)
		return 2;

	u32 n = hours * 3600 + minutes * 60 + seconds;
	u8 out[4] = {n >> 24, n >> 16, n >> 8, n};

	return emit_value(0, out, sizeof(out));
}
