/* Emits a value of up to 48 bytes in upper case; a longer one is rejected.
 *
 * k | Berlin, 12 -> 0 k | BERLIN, 12
 * k | -> 0 k |
 * k | 0123456789*5 -> reject 1 */
#include "klog.h"

u64 transform(const u8 *value, u64 value_length, const u8 *key, u64 key_length, u64 nulls)
{
	u8 upper[48] = {0};

	if (value_length > sizeof upper)
		return 1;
	for (int i = 0; i < sizeof upper; i++)
		if (i < value_length)
			upper[i] = value[i] >= 'a' && value[i] <= 'z' ? value[i] - 32 : value[i];
	return emit_value(0, upper, value_length);
}
