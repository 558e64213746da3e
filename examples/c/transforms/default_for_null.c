/* Gives a record without a value the value "{}".
 *
 * k | null -> 0 k | {}
 * k | v -> 0 k | v */
#include "klog.h"

u64 transform(const u8 *value, u64 value_length, const u8 *key, u64 key_length, u64 nulls)
{
	if (nulls & VALUE_IS_NULL)
		return emit_value(0, "{}", 2);
	return emit_record(0);
}
