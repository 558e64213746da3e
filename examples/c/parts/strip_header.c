/* Cuts off the 5 bytes of a schema registry: a 0 and a schema's number.
 *
 * k | \0\0\0\0\x07hello -> 0 k | hello
 * k | \0\0\0\0\x07 -> 0 k |
 * k | \0*5000 -> 0 k | \0*4995
 * k | \0\0\0\0\x07a -> 0 k | a
 * k | hello -> reject 10
 * k | hex:000000 -> reject 10
 * k | -> reject 10
 * k | null -> reject 10 */
#include "klog_parts.h"

u64 transform(const u8 *value, u64 value_length, const u8 *key, u64 key_length, u64 nulls)
{
	if (value_length < 5 || value[0] != 0)
		return 10;
	return emit_part(0, VALUE, 5, value_length - 5);
}
