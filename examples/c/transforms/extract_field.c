/* Emits the field, of up to 200 bytes, that a value begins with after its length in 2 bytes, big-endian.
 *
 * k | \0\4name and more -> 0 k | name
 * k | \0\4na -> reject 1
 * k | \1\0 -> reject 1 */
#include "klog.h"

u64 transform(const u8 *value, u64 value_length, const u8 *key, u64 key_length, u64 nulls)
{
	u64 length;

	if (value_length < 2)
		return 1;
	length = value[0] << 8 | value[1];
	if (length == 0 || length > 200 || value_length < 2 + length)
		return 1;
	return emit_value(0, value + 2, length);
}
