/* Rejects values whose seventeenth and last byte is not the exclusive or of the sixteen before it.
 *
 * k | ababababababababX -> reject 2
 * k | ababababababababb -> reject 2
 * k | abababababababab\0 -> 0 k | abababababababab\0
 * k | a -> reject 1 */
#include "klog.h"

u64 transform(const u8 *value, u64 value_length, const u8 *key, u64 key_length, u64 nulls)
{
	u8 sum = 0;

	if (value_length != 17)
		return 1;
	for (int i = 0; i < 16; i++)
		sum ^= value[i];
	if (sum != value[16])
		return 2;
	return emit_record(0);
}
