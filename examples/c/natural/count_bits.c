/* Emits how many bits of a value of up to 32 bytes are 1, as one byte.
 *
 * k | \xff\1 -> 0 k | \x09
 * k | -> 0 k | \0
 * k | x*33 -> reject 1 */
#include "klog.h"

u64 transform(const u8 *value, u64 value_length, const u8 *key, u64 key_length, u64 nulls)
{
	u8 count = 0;

	if (value_length > 32)
		return 1;
	for (u64 i = 0; i < value_length; i++)
		for (u8 c = value[i]; c; c &= c - 1)
			count++;
	return emit_value(0, &count, 1);
}
