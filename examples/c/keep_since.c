/* Forwards the records from 2026-01-01 00:00:00 UTC on, each to the output of its input partition; older ones are
 * rejected with code 1. */
#include "klog.h"

#define SINCE 1767225600000ULL

u64 transform(const u8 *value, u64 value_length, const u8 *key, u64 key_length, u64 nulls)
{
	if (record_timestamp() < SINCE)
		return 1;
	emit_record(record_partition());
	return 0;
}
