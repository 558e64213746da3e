/* Gives a record its tenant as key: the value of the header "tenant", or of "x-tenant" where that isn't there or is empty. A record
 * that has neither is rejected with 110; a tenant has at most 32 bytes.
 *
 * k | v with tenant=acme -> 0 acme | v
 * k | v with x-tenant=beta -> 0 beta | v
 * k | v with x-tenant=beta, tenant=acme -> 0 acme | v
 * k | v with trace=1 -> reject 110
 * k | v -> reject 110
 */
#include "klog.h"

static u64 find_header(u8 *to, u64 room, const char *name, u64 name_length)
{
	for (u64 i = 0; i < header_count(); i++) {
		u8 found[16];
		u64 n = header_key(found, i, sizeof(found));
		if (n == name_length + 1 && memcmp(found, name, name_length) == 0) {
			u64 length = header_value(to, i, room);
			if (length > 2)
				return length - 2;
		}
	}
	return 0;
}

u64 transform(const u8 *value, u64 value_length, const u8 *key, u64 key_length, u64 nulls)
{
	u8 tenant[32];
	u64 n = find_header(tenant, sizeof(tenant), "tenant", 6);
	if (n == 0)
		n = find_header(tenant, sizeof(tenant), "x-tenant", 8);
	if (n == 0)
		return 110;
	if (n > sizeof(tenant))
		return 111;
	return emit(0, tenant, n, value, value_length);
}
