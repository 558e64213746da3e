/* A value is a temperature in tenths of a degree, a signed number of 2 bytes, big-endian. Those below -10 and above 40 degrees
 * go to output 1, others to output 0.
 *
 * k | \0\312 -> 0 k | \0\312
 * k | \1\221 -> 1 k | \1\221
 * k | \1\220 -> 0 k | \1\220
 * k | \377\234 -> 0 k | \377\234
 * k | \377\233 -> 1 k | \377\233
 * k | \0 -> reject 1 */
#include "klog.h"

u64 transform(const u8 *value, u64 value_length, const u8 *key, u64 key_length, u64 nulls)
{
	short level;

	if (value_length < 2)
		return 1;
	level = value[0] << 8 | value[1];
	if (level < -100 || level > 400)
		return emit_record(1);
	return emit_record(0);
}
