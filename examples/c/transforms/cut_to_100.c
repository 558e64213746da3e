/* Emits the first 100 bytes of longer values, and forwards others.
 *
 * k | short -> 0 k | short
 * k | 0123456789*11 -> 0 k | 0123456789*10 */
#include "klog.h"

u64 transform(const u8 *value, u64 value_length, const u8 *key, u64 key_length, u64 nulls)
{
	if (value_length > 100)
		return emit_value(0, value, 100);
	return emit_record(0);
}
