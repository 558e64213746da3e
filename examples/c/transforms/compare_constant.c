/* Drops the records whose value is "heartbeat".
 *
 * k | heartbeat -> nothing
 * k | heartbeats -> 0 k | heartbeats
 * k | heart -> 0 k | heart */
#include "klog.h"

u64 transform(const u8 *value, u64 value_length, const u8 *key, u64 key_length, u64 nulls)
{
	if (value_length == 9 && memcmp(value, "heartbeat", 9) == 0)
		return 0;
	return emit_record(0);
}
