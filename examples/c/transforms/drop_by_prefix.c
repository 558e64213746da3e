/* Drops the records whose key begins with "test-".
 *
 * test-7 | a -> nothing
 * tes | a -> 0 tes | a
 * order-7 | a -> 0 order-7 | a */
#include "klog.h"

u64 transform(const u8 *value, u64 value_length, const u8 *key, u64 key_length, u64 nulls)
{
	if (key_length >= 5 && key[0] == 't' && key[1] == 'e' && key[2] == 's' && key[3] == 't' && key[4] == '-')
		return 0;
	return emit_record(0);
}
