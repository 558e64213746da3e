/* Keeps one key in ten, by a hash of its first 16 bytes.
 *
 * customer-0 | a -> 0 customer-0 | a
 * customer-17 | a -> nothing */
#include "klog.h"

u64 transform(const u8 *value, u64 value_length, const u8 *key, u64 key_length, u64 nulls)
{
	u64 hash = 5381;

	for (u64 i = 0; i < 16; i++)
		if (i < key_length)
			hash = hash * 33 + key[i];
	if (hash % 10 != 0)
		return 0;
	return emit_record(0);
}
