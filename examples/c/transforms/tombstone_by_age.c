/* Turns records from before 2026-01-01 into deletions of their keys.
 *
 * k | v at 1767225599999 -> 0 k | null
 * k | v at 1767225600000 -> 0 k | v */
#include "klog.h"

#define FIRST 1767225600000

u64 transform(const u8 *value, u64 value_length, const u8 *key, u64 key_length, u64 nulls)
{
	if (record_timestamp() < FIRST)
		return emit_null(0);
	return emit_record(0);
}
