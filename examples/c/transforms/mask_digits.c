/* Writes a star over each digit of a value of up to 32 bytes, and rejects longer ones.
 *
 * k | card 4111, code 7 -> 0 k | card ****, code *
 * k | -> 0 k |
 * k | a value of more than thirty-two bytes -> reject 1 */
#include "klog.h"

u64 transform(const u8 *value, u64 value_length, const u8 *key, u64 key_length, u64 nulls)
{
	u8 masked[32];

	if (value_length > sizeof masked)
		return 1;
	for (u64 i = 0; i < value_length; i++)
		masked[i] = value[i] >= '0' && value[i] <= '9' ? '*' : value[i];
	return emit_value(0, masked, value_length);
}
