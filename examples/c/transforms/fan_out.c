/* Each of the low four bits of a value's first byte names an output that gets the record.
 *
 * k | \5 -> 0 k | \5 + 2 k | \5
 * k | \0 -> nothing
 * k | -> reject 1 */
#include "klog.h"

u64 transform(const u8 *value, u64 value_length, const u8 *key, u64 key_length, u64 nulls)
{
	if (value_length < 1)
		return 1;
	for (int output = 0; output < 4; output++)
		if (value[0] >> output & 1)
			emit_record(output);
	return 0;
}
