/* Writes the value of the header "tenant" of up to 16 bytes and a slash before a key of up to 32 bytes.
 *
 * k1 | v with tenant=acme -> 0 acme/k1 | v
 * k1 | v with a=1, tenant=b -> 0 b/k1 | v
 * k1 | v -> reject 1 */
#include "klog.h"

u64 transform(const u8 *value, u64 value_length, const u8 *key, u64 key_length, u64 nulls)
{
	u8 name[8], made[16 + 1 + 32];

	if (key_length > 32)
		return 2;
	for (u64 i = 0; i < header_count(); i++) {
		if (header_key(name, i, sizeof name) != 7 || memcmp(name, "tenant", 6))
			continue;
		u64 found = header_value(made, i, 16);
		if (found < 2 || found - 2 > 16)
			return 3;
		u64 length = found - 2;
		made[length++] = '/';
		memcpy(made + length, key, key_length);
		return emit(0, made, length + key_length, value, value_length);
	}
	return 1;
}
