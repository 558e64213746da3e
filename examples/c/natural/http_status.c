/* A value is a line of a web server's log: the status of three digits follows the second quote and a space. Sends lines of up to 160
 * bytes to output 0 (2xx and 3xx), 1 (4xx) or 2 (5xx), and rejects others.
 *
 * k | 1.2.3.4 - - [x] "GET / HTTP/1.1" 200 12 -> 0 k | 1.2.3.4 - - [x] "GET / HTTP/1.1" 200 12
 * k | - "GET /a" 404 0 -> 1 k | - "GET /a" 404 0
 * k | "" 503 -> 2 k | "" 503
 * k | "" 99 -> reject 11
 * k | no quotes 200 -> reject 11
 * k | x*161 -> reject 10 */
#include "klog.h"

u64 transform(const u8 *value, u64 value_length, const u8 *key, u64 key_length, u64 nulls)
{
	int quotes = 0;
	u64 at;

	if (value_length > 160)
		return 10;
	for (at = 0; at < value_length && quotes < 2; at++)
		if (value[at] == '"')
			quotes++;
	if (quotes < 2 || at + 4 > value_length || value[at] != ' ')
		return 11;

	int status = 0;

	for (int i = 1; i <= 3; i++) {
		u8 c = value[at + i];

		if (c < '0' || c > '9')
			return 11;
		status = status * 10 + (c - '0');
	}
	switch (status / 100) {
	case 2:
	case 3:
		return emit_record(0);
	case 4:
		return emit_record(1);
	case 5:
		return emit_record(2);
	default:
		return 11;
	}
}
