/* Puts the timestamp and the offset before a value of 8 bytes, in 24 bytes, little-endian.
 *
 * k | reading8 at 258 -> 0 k | \2\1\0\0\0\0\0\0\0\0\0\0\0\0\0\0reading8
 * k | r -> reject 1 */
#include "klog.h"

u64 transform(const u8 *value, u64 value_length, const u8 *key, u64 key_length, u64 nulls)
{
	u64 stamped[3];

	if (value_length != 8)
		return 1;
	stamped[0] = record_timestamp();
	stamped[1] = record_offset();
	stamped[2] = *(const u64 *)value;
	return emit_value(0, stamped, sizeof stamped);
}
