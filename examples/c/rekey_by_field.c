/* Rekeys records by a field of the value: its first byte is the place at which eight bytes begin that become the key. A
 * value that has no such field is rejected with code 1, and one of no bytes with code 2. */
#include "klog.h"

u64 transform(const u8 *value, u64 value_length, const u8 *key, u64 key_length, u64 nulls)
{
	u8 field[8];

	if (value_length == 0)
		return 2;
	if (load_value(field, value[0], sizeof field))
		return 1;
	return emit(0, field, sizeof field, value, value_length);
}
