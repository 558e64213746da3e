/* Forwards the records whose value begins with 'A', and drops the others. */
#include "klog.h"

u64 transform(const u8 *value, u64 value_length, const u8 *key, u64 key_length, u64 nulls)
{
	if (value_length < 1)
		return 0;
	if (value[0] == 'A')
		emit_record(0);
	return 0;
}
