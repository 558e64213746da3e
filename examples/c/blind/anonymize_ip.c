/* Sets the last number of the IPv4 address to 0 with which a line of an access log begins.
 *
 * k | 192.168.1.77 GET / -> 0 k | 192.168.1.0 GET /
 * k | 10.0.0.5 -> 0 k | 10.0.0.0
 * k | 8.8.8.8 POST /login -> 0 k | 8.8.8.0 POST /login
 * k | localhost GET / -> reject 10
 * k | 10.0.0. GET / -> reject 10 */
#include "klog_parts.h"

u64 transform(const u8 *value, u64 value_length, const u8 *key, u64 key_length, u64 nulls)
{
	u64 end = 0, last = 0, dots = 0;

	while (end < value_length && end < 16 && value[end] != ' ') {
		if (value[end] == '.') {
			dots++;
			last = end;
		}
		end++;
	}
	if (dots != 3 || end > 15 || end == last + 1)
		return 10;
	return emit_changed(0, last + 1, end - last - 1, "0", 1);
}
