/* Emits the first 100 bytes of longer values, and forwards others.
 *
 * k | a -> 0 k | a
 * k | -> 0 k |
 * k | null -> 0 k | null
 * k | a*100 -> 0 k | a*100
 * k | a*101 -> 0 k | a*100
 * k | ab*500000 -> 0 k | ab*50 */
#include "klog_parts.h"

u64 transform(const u8 *value, u64 value_length, const u8 *key, u64 key_length, u64 nulls)
{
	if (value_length <= 100)
		return emit_record(0);
	return emit_part(0, VALUE, 0, 100);
}
