/* Routes a record by the first byte of its key: to output 1 where the byte is odd, else to output 0. A record
   without a key byte is rejected with code 1. */
#include "klog.h"

u64 transform(const u8 *value, u64 value_length, const u8 *key, u64 key_length, u64 nulls)
{
	if (key_length < 1)
		return 1;
	return emit_record(key[0] & 1);
}
