/* Cuts off the newline of a line of up to 200 bytes.
 *
 * k | line\n -> 0 k | line
 * k | line -> 0 k | line
 * k | -> 0 k | */
#include "klog.h"

u64 transform(const u8 *value, u64 value_length, const u8 *key, u64 key_length, u64 nulls)
{
	if (value_length > 200)
		return 1;
	if (value_length > 1 && value[value_length - 1] == '\n')
		return emit_value(0, value, value_length - 1);
	return emit_record(0);
}
