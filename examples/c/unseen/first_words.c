/* Emits the first three words of a value of up to 100 bytes; words have one or more spaces between them.
 *
 * k | the quick brown fox -> 0 k | the quick brown
 * k | one two -> 0 k | one two
 * k | a  b   c    d -> 0 k | a  b   c
 * k | -> 0 k | */
#include "klog.h"

u64 transform(const u8 *value, u64 value_length, const u8 *key, u64 key_length, u64 nulls)
{
	int words = 0;
	u64 end = 0;
	u8 before = ' ';

	if (value_length > 100)
		return 1;
	for (u64 i = 0; i < value_length; i++) {
		if (value[i] != ' ') {
			if (before == ' ' && ++words > 3)
				break;
			end = i + 1;
		}
		before = value[i];
	}
	return emit_value(0, value, end);
}
