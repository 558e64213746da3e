/* Emits a value of up to 100 bytes backwards.
 *
 * k | abc -> 0 k | cba
 * k | -> 0 k |
 * k | x*101 -> reject 1 */
#include "klog.h"

u64 transform(const u8 *value, u64 value_length, const u8 *key, u64 key_length, u64 nulls)
{
	u8 reversed[100];

	if (value_length > sizeof reversed)
		return 1;
	for (u64 i = 0; i < value_length; i++)
		reversed[i] = value[value_length - 1 - i];
	return emit_value(0, reversed, value_length);
}
