/* Sends values that begin with A to M to output 0, others to output 1, and drops empty ones.
 *
 * k | Apple -> 0 k | Apple
 * k | Orange -> 1 k | Orange
 * k | -> nothing */
#include "klog.h"

u64 transform(const u8 *value, u64 value_length, const u8 *key, u64 key_length, u64 nulls)
{
	if (value_length == 0)
		return 0;
	if (value[0] >= 'A' && value[0] <= 'M')
		return emit_record(0);
	return emit_record(1);
}
