/* Adds the header "source" with the value "klog"; a record that has sixteen headers is forwarded with these.
 *
 * k | a -> 0 k | a
 * k | a with source=other -> 0 k | a
 * k | -> 0 k |
 * k | null -> 0 k | null
 * null | a*1048576 -> 0 null | a*1048576 */
#include "klog_parts.h"

u64 transform(const u8 *value, u64 value_length, const u8 *key, u64 key_length, u64 nulls)
{
	add_header("source", 6, "klog", 4);
	return emit_record(0);
}
