/* Cuts off the newline of a line, or its carriage return and newline.
 *
 * k | hello\n -> 0 k | hello
 * k | hello\r\n -> 0 k | hello
 * k | hello -> 0 k | hello
 * k | \n -> 0 k |
 * k | \n\n -> 0 k | \n
 * k | -> 0 k |
 * k | \n*100000 -> 0 k | \n*99999
 * k | null -> 0 k | null */
#include "klog_parts.h"

u64 transform(const u8 *value, u64 value_length, const u8 *key, u64 key_length, u64 nulls)
{
	if (value_length == 0 || value[value_length - 1] != '\n')
		return emit_record(0);

	u64 end = value_length - 1;

	if (end > 0 && value[end - 1] == '\r')
		end--;
	return emit_part(0, VALUE, 0, end);
}
