/* Writes crosses over a password, the bytes 8 to 15 of a value of 32.
 *
 * k | customerSECRET12 ordinary bytes. -> 0 k | customerxxxxxxxx ordinary bytes.
 * k | short -> reject 1 */
#include "klog.h"

u64 transform(const u8 *value, u64 value_length, const u8 *key, u64 key_length, u64 nulls)
{
	u8 row[32];

	if (value_length != sizeof row)
		return 1;
	for (int i = 0; i < sizeof row; i++)
		row[i] = i >= 8 && i < 16 ? 'x' : value[i];
	return emit_value(0, row, sizeof row);
}
