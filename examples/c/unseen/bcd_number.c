/* A value is a number in packed decimal: two digits a byte, 1 to 8 bytes. Emits it as text without leading zeros.
 *
 * k | hex:0012 -> 0 k | 12
 * k | hex:1234567890123456 -> 0 k | 1234567890123456
 * k | hex:00 -> 0 k | 0
 * k | hex:1A -> reject 2
 * k | -> reject 1 */
#include "klog.h"

u64 transform(const u8 *value, u64 value_length, const u8 *key, u64 key_length, u64 nulls)
{
	char digits[16];
	unsigned count = 0, first = 0;

	if (value_length == 0 || value_length > 8)
		return 1;
	for (u64 i = 0; i < value_length; i++) {
		u8 high = value[i] >> 4, low = value[i] & 0x0f;

		if (high > 9 || low > 9)
			return 2;
		digits[count++] = '0' + high;
		digits[count++] = '0' + low;
	}
	while (first + 1 < count && digits[first] == '0')
		first++;
	return emit_value(0, digits + first, count - first);
}
