/* Emits a value of up to 64 bytes without the spaces at its beginning and at its end.
 *
 * k | \x20 a b\x20 -> 0 k | a b
 * k | x -> 0 k | x
 * k | \x20\x20 -> 0 k |
 * k | x*65 -> reject 1 */
#include "klog.h"

u64 transform(const u8 *value, u64 value_length, const u8 *key, u64 key_length, u64 nulls)
{
	const u8 *start = value, *end = value + value_length;

	if (value_length > 64)
		return 1;
	while (start < end && *start == ' ')
		start++;
	while (end > start && end[-1] == ' ')
		end--;
	return emit_value(0, start, end - start);
}
