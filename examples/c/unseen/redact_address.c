/* A value is a line of an access log that begins with an IPv4 address. Emits it with a 0 in place of the address's last part.
 *
 * k | 203.0.113.77 - GET / -> 0 k | 203.0.113.0 - GET /
 * k | 10.0.0.5 -> 0 k | 10.0.0.0
 * k | 1.2.3.250 x -> 0 k | 1.2.3.0 x
 * k | localhost - GET / -> reject 30
 * k | 1.2.3 - GET / -> reject 30
 */
#include "klog.h"

u64 transform(const u8 *value, u64 value_length, const u8 *key, u64 key_length, u64 nulls)
{
	u8 line[256];
	if (value_length > sizeof(line))
		return 31;
	u64 at = 0, dots = 0;
	while (at < value_length && at < 15 && dots < 3) {
		u8 c = value[at];
		if (c == '.')
			dots++;
		else if (c < '0' || c > '9')
			return 30;
		at++;
	}
	if (dots != 3)
		return 30;
	u64 rest = at;
	while (rest < value_length && value[rest] >= '0' && value[rest] <= '9')
		rest++;
	if (rest == at)
		return 30;
	memcpy(line, value, at);
	line[at] = '0';
	memcpy(line + at + 1, value + rest, value_length - rest);
	return emit_value(0, line, at + 1 + value_length - rest);
}
