/* Writes "v1:" before a value of up to 100 bytes; a longer one is rejected.
 *
 * k | abc -> 0 k | v1:abc
 * k | -> 0 k | v1:
 * k | 0123456789*10 -> 0 k | v1:0123456789012345678901234567890123456789012345678901234567890123456789012345678901234567890123456789
 * k | 0123456789*11 -> reject 1 */
#include "klog.h"

u64 transform(const u8 *value, u64 value_length, const u8 *key, u64 key_length, u64 nulls)
{
	u8 text[103] = "v1:";

	if (value_length > 100)
		return 1;
	for (u64 i = 0; i < 100; i++)
		if (i < value_length)
			text[3 + i] = value[i];
	return emit_value(0, text, 3 + value_length);
}
