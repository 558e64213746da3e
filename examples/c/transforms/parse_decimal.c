/* Sends decimal numbers of 1 to 6 digits to output 1 from 1000 on, else to output 0.
 *
 * k | 999 -> 0 k | 999
 * k | 1000 -> 1 k | 1000
 * k | 12x -> reject 1
 * k | -> reject 1
 * k | 1234567 -> reject 1 */
#include "klog.h"

u64 transform(const u8 *value, u64 value_length, const u8 *key, u64 key_length, u64 nulls)
{
	unsigned number = 0;

	if (value_length < 1 || value_length > 6)
		return 1;
	for (int i = 0; i < 6; i++) {
		if (i >= value_length)
			break;
		if (value[i] < '0' || value[i] > '9')
			return 1;
		number = number * 10 + (value[i] - '0');
	}
	return emit_record(number >= 1000);
}
