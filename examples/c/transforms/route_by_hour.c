/* Sends the records of the hours from 8 to 18, UTC, to output 0, others to output 1.
 *
 * k | v at 1767225600000 -> 1 k | v
 * k | v at 1767254400000 -> 0 k | v
 * k | v at 1767290399999 -> 0 k | v
 * k | v at 1767290400000 -> 1 k | v */
#include "klog.h"

u64 transform(const u8 *value, u64 value_length, const u8 *key, u64 key_length, u64 nulls)
{
	u64 hour = record_timestamp() / 3600000 % 24;

	if (hour >= 8 && hour < 18)
		return emit_record(0);
	return emit_record(1);
}
