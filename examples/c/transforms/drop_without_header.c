/* Drops the records that have no header "trace".
 *
 * k | v with trace=1 -> 0 k | v
 * k | v with id=7, trace=null -> 0 k | v
 * k | v with tracer=1 -> nothing
 * k | v -> nothing */
#include "klog.h"

u64 transform(const u8 *value, u64 value_length, const u8 *key, u64 key_length, u64 nulls)
{
	u8 trace[8] = "trace", name[8];

	for (u64 at = 0; at < 16; at++)
		if (header_key(name, at, 8) == 6 && !memcmp(name, trace, 5))
			return emit_record(0);
	return 0;
}
