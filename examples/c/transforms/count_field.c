/* Emits the length of a value's first field, at most 20, as one byte. A comma or the value's end is its end.
 *
 * k | name,street -> 0 k | \4
 * k | name -> 0 k | \4
 * k | ,street -> 0 k | \0
 * k | a field of more than 20 bytes, rest -> reject 1 */
#include "klog.h"

u64 transform(const u8 *value, u64 value_length, const u8 *key, u64 key_length, u64 nulls)
{
	u8 length = 0;

	while (length < 21 && length < value_length && value[length] != ',')
		length++;
	if (length > 20)
		return 1;
	return emit_value(0, &length, 1);
}
