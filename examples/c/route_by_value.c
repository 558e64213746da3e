/* Routes a record by a hash of its value over four outputs. The hash is FNV-1a (32 bits) of the value's first 8 bytes; a
 * record without a value goes where the empty value goes. */
#include "klog.h"

#define OUTPUTS 4
#define HASHED 8

u64 transform(const u8 *value, u64 value_length, const u8 *key, u64 key_length, u64 nulls)
{
	u32 hash = 0x811c9dc5;

	for (u64 i = 0; i < HASHED; i++)
		if (i < value_length)
			hash = (hash ^ value[i]) * 0x01000193;
	return emit_record(hash % OUTPUTS);
}
