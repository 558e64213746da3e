/* A value begins with a customer's number as a varint of protobuf, 1 to 5 bytes. Routes by the number over four outputs.
 *
 * k | \7rest -> 3 k | \7rest
 * k | \254\2 -> 0 k | \254\2
 * k | \377\377\377\377\17 -> 3 k | \377\377\377\377\17
 * k | \200 -> reject 1
 * k | \377\377\377\377\377\1 -> reject 1 */
#include "klog.h"

u64 transform(const u8 *value, u64 value_length, const u8 *key, u64 key_length, u64 nulls)
{
	u64 number = 0;

	for (int i = 0; i < 5; i++) {
		if (i >= value_length)
			return 1;
		number |= (u64)(value[i] & 0x7f) << (7 * i);
		if (value[i] < 0x80)
			return emit_record(number % 4);
	}
	return 1;
}
