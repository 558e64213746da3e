/* Routes a record by the hash of its key over four outputs, so that all records with one key go to the same output. The
 * hash is FNV-1a (64 bits) of the key's first 16 bytes; a record without a key goes where the empty key goes. */
#include "klog.h"

#define OUTPUTS 4
#define HASHED 16

u64 transform(const u8 *value, u64 value_length, const u8 *key, u64 key_length, u64 nulls)
{
	u64 hash = 0xcbf29ce484222325;

	for (u64 i = 0; i < HASHED; i++)
		if (i < key_length)
			hash = (hash ^ key[i]) * 0x100000001b3;
	return emit_record((hash ^ hash >> 32) % OUTPUTS);
}
