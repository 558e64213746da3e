/* A value is an IPv4 address as text. Those of private networks go to output 1, others to output 0; what is none is rejected.
 *
 * k | 10.1.2.3 -> 1 k | 10.1.2.3
 * k | 192.168.0.1 -> 1 k | 192.168.0.1
 * k | 172.32.0.1 -> 0 k | 172.32.0.1
 * k | 172.31.255.255 -> 1 k | 172.31.255.255
 * k | 8.8.8 -> reject 1
 * k | 8.8.8.256 -> reject 1 */
#include "klog.h"

u64 transform(const u8 *value, u64 value_length, const u8 *key, u64 key_length, u64 nulls)
{
	unsigned parts[4] = {0}, count = 0, digits = 0;

	if (value_length > 15)
		return 1;
	for (u64 i = 0; i < value_length; i++) {
		u8 c = value[i];

		if (c == '.') {
			if (!digits || ++count > 3)
				return 1;
			digits = 0;
		} else if (c >= '0' && c <= '9' && digits < 3) {
			parts[count] = parts[count] * 10 + c - '0';
			if (parts[count] > 255)
				return 1;
			digits++;
		} else {
			return 1;
		}
	}
	if (count != 3 || !digits)
		return 1;
	if (parts[0] == 10 || (parts[0] == 172 && parts[1] >= 16 && parts[1] < 32) || (parts[0] == 192 && parts[1] == 168))
		return emit_record(1);
	return emit_record(0);
}
