/* Masks a card number: a value of 16 digits is emitted with all but its last four as asterisks, and a record with any
 * other value is rejected with code 1. */
#include "klog.h"

u64 transform(const u8 *value, u64 value_length, const u8 *key, u64 key_length, u64 nulls)
{
	u8 masked[16] = "************";

	if (value_length != 16)
		return 1;
	masked[12] = value[12];
	masked[13] = value[13];
	masked[14] = value[14];
	masked[15] = value[15];
	return emit_value(0, masked, 16);
}
