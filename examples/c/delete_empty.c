/* Forwards every tenth record, by its offset, and turns a record with an empty value into a deletion of its key. */
#include "klog.h"

u64 transform(const u8 *value, u64 value_length, const u8 *key, u64 key_length, u64 nulls)
{
	if (value_length == 0)
		emit_null(0);
	else if (record_offset() % 10 == 0)
		emit_record(0);
	return 0;
}
