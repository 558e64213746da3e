/* Emits the third column of a line of comma-separated values; a line with fewer columns is rejected.
 *
 * k | a,bb,ccc,d -> 0 k | ccc
 * k | a,b,c -> 0 k | c
 * k | a,b -> reject 1
 * k | -> reject 1 */
#include "klog.h"

u64 transform(const u8 *value, u64 value_length, const u8 *key, u64 key_length, u64 nulls)
{
	u64 column = 0, start = 0;

	for (u64 i = 0; i <= value_length && i < 200; i++) {
		if (i == value_length || value[i] == ',') {
			if (column == 2)
				return emit_value(0, value + start, i - start);
			column++;
			start = i + 1;
		}
	}
	return 1;
}
