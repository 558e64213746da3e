/* A value is eight numbers of 4 bytes, little-endian. Emits them in rising order.
 *
 * k | \3\0\0\0\1\0\0\0\2\0\0\0\0\0\0\0\7\0\0\0\6\0\0\0\5\0\0\0\4\0\0\0 -> 0 k | \0\0\0\0\1\0\0\0\2\0\0\0\3\0\0\0\4\0\0\0\5\0\0\0\6\0\0\0\7\0\0\0
 * k | short -> reject 1 */
#include "klog.h"
#include <string.h>

u64 transform(const u8 *value, u64 value_length, const u8 *key, u64 key_length, u64 nulls)
{
	u32 numbers[8];

	if (value_length != sizeof numbers)
		return 1;
	memcpy(numbers, value, sizeof numbers);
	for (int i = 1; i < 8; i++) {
		u32 n = numbers[i];
		int j = i;

		while (j > 0 && numbers[j - 1] > n) {
			numbers[j] = numbers[j - 1];
			j--;
		}
		numbers[j] = n;
	}
	return emit_value(0, numbers, sizeof numbers);
}
