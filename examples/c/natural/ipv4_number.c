/* A key is an IPv4 address as text. Gives the record its four bytes as key.
 *
 * 10.0.0.1 | v -> 0 hex:0a000001 | v
 * 255.255.255.255 | v -> 0 hex:ffffffff | v
 * 256.0.0.1 | v -> reject 10
 * 1.2.3 | v -> reject 10
 * 1.2.3.4.5 | v -> reject 10
 * 1..2.3 | v -> reject 10
 * null | v -> reject 10 */
#include "klog.h"

u64 transform(const u8 *value, u64 value_length, const u8 *key, u64 key_length, u64 nulls)
{
	u8 address[4];
	const u8 *p = key, *end = key + key_length;

	if (key_length > 15)
		return 10;
	for (int part = 0; part < 4; part++) {
		u32 n = 0;
		int digits = 0;

		while (p < end && *p >= '0' && *p <= '9' && digits < 3) {
			n = n * 10 + (*p++ - '0');
			digits++;
		}
		if (!digits || n > 255)
			return 10;
		address[part] = n;
		if (part < 3) {
			if (p == end || *p != '.')
				return 10;
			p++;
		}
	}
	if (p != end)
		return 10;
	return emit(0, address, sizeof address, value, value_length);
}
