/* Splits a value of 32 bytes into two records of 16, for outputs 0 and 1.
 *
 * k | first row 16 b..second row 16 b. -> 0 k | first row 16 b.. + 1 k | second row 16 b.
 * k | a -> reject 1 */
#include "klog.h"

u64 transform(const u8 *value, u64 value_length, const u8 *key, u64 key_length, u64 nulls)
{
	if (value_length != 32)
		return 1;
	if (emit_value(0, value, 16))
		return 2;
	return emit_value(1, value + 16, 16);
}
