/* Splits a compacted topic: rows go to output 0; a null or empty value is a deletion, which goes to output 1 as a null value
 * and to the audit's output 2 as a text. Records without a key cannot be compacted and are rejected.
 *
 * user:9 | {"name":"Ada"} -> 0 user:9 | {"name":"Ada"}
 * user:9 | null -> 1 user:9 | null + 2 user:9 | deleted
 * user:9 | hex: -> 1 user:9 | null + 2 user:9 | deleted
 * null | {"name":"Ada"} -> reject 20 */
#include "klog.h"

u64 transform(const u8 *value, u64 value_length, const u8 *key, u64 key_length, u64 nulls)
{
	u64 failed;

	if (nulls & KEY_IS_NULL)
		return 20;
	if (!(nulls & VALUE_IS_NULL) && value_length > 0)
		return emit_record(0);

	failed = emit_null(1);
	if (failed)
		return failed;
	return emit_value(2, "deleted", 7);
}
