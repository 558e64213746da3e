/* Gives a record the key that stands before the first semicolon of its value, within 64 bytes.
 *
 * k | berlin;12.5 -> 0 berlin | berlin;12.5
 * k | no separator -> reject 1
 * k | ;12.5 -> 0  | ;12.5 */
#include "klog.h"

u64 transform(const u8 *value, u64 value_length, const u8 *key, u64 key_length, u64 nulls)
{
	u64 at;

	for (at = 0; at < 64; at++) {
		if (at >= value_length)
			return 1;
		if (value[at] == ';')
			return emit(0, value, at, value, value_length);
	}
	return 1;
}
