/* Routes over four outputs by the hash of the key, as Kafka's clients do; without a key to output 0.
 *
 * 21 | v -> 0 21 | v
 * abc | v -> 3 abc | v
 * foobar | v -> 2 foobar | v
 * null | v -> 0 null | v */
#include "klog_parts.h"

u64 transform(const u8 *value, u64 value_length, const u8 *key, u64 key_length, u64 nulls)
{
	return forward_to(hash(KEY) % 4);
}
