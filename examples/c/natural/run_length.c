/* Emits runs of equal bytes of a value of up to 32 bytes: each as its length and the byte.
 *
 * k | aaab -> 0 k | \3a\1b
 * k | -> 0 k |
 * k | x*33 -> reject 1 */
#include "klog.h"

u64 transform(const u8 *value, u64 value_length, const u8 *key, u64 key_length, u64 nulls)
{
	u8 runs[64];
	u64 length = 0;

	if (value_length > 32)
		return 1;
	for (u64 i = 0; i < value_length; i++) {
		if (i > 0 && value[i] == value[i - 1]) {
			runs[length - 2]++;
		} else {
			runs[length++] = 1;
			runs[length++] = value[i];
		}
	}
	return emit_value(0, runs, length);
}
