#include "klog.h"

u64 transform(const u8 *value, u64 value_length, const u8 *key, u64 key_length, u64 nulls)
{
	return emit_record(value[0] == '4' ? 1 : 0);
}
