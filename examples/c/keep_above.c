/* A value is a number of 8 bytes, little-endian, and a level of 1 byte. Forwards the records whose number is above
   1,000 and whose level is not 0, and drops the others. A value that is too short is rejected with code 1. */
#include "klog.h"

u64 transform(const u8 *value, u64 value_length, const u8 *key, u64 key_length, u64 nulls)
{
	u64 number;

	if (value_length < 9)
		return 1;
	number = *(const u64 *)value;
	if (number <= 1000)
		return 0;
	if (value[8] == 0)
		return 0;
	return emit_record(0);
}
