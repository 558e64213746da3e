/* Makes the value the key, and the key the value.
 *
 * k | v -> 0 v | k */
#include "klog.h"

u64 transform(const u8 *value, u64 value_length, const u8 *key, u64 key_length, u64 nulls)
{
	return emit(0, value, value_length, key, key_length);
}
