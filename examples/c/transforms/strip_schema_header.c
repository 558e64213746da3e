/* Cuts off the 5 bytes of a schema registry: a 0 and a schema's number.
 *
 * k | \0\0\0\0\7payload -> 0 k | payload
 * k | \1\0\0\0\7payload -> reject 1
 * k | \0\0\0 -> reject 1 */
#include "klog.h"

u64 transform(const u8 *value, u64 value_length, const u8 *key, u64 key_length, u64 nulls)
{
	if (value_length < 6 || value[0] != 0)
		return 1;
	return emit_value(0, value + 5, value_length - 5);
}
