/* Writes a key of 8 letters in lower case.
 *
 * ORDER-aB | v -> 0 order-ab | v
 * k | v -> reject 1 */
#include "klog.h"

u64 transform(const u8 *value, u64 value_length, const u8 *key, u64 key_length, u64 nulls)
{
	u8 lower[8];

	if (key_length != sizeof lower)
		return 1;
	for (int i = 0; i < sizeof lower; i++)
		lower[i] = key[i] >= 'A' && key[i] <= 'Z' ? key[i] + 32 : key[i];
	return emit(0, lower, sizeof lower, value, value_length);
}
