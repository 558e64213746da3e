/* Writes a line of at most eight fields with commas between them in columns of eight bytes: a field is cut, or spaces follow it.
 *
 * k | id,name,city -> 0 k | id      name    city\x20\x20\x20\x20
 * k | a -> 0 k | a\x20\x20\x20\x20\x20\x20\x20
 * k | international,x -> 0 k | internatx\x20\x20\x20\x20\x20\x20\x20
 * k | 1,2,3,4,5,6,7,8,9 -> reject 1
 */
#include "klog.h"

#define FIELDS 8
#define WIDTH 8

u64 transform(const u8 *value, u64 value_length, const u8 *key, u64 key_length, u64 nulls)
{
	u8 line[FIELDS * WIDTH];
	int fields = 0, column = 0;

	memset(line, ' ', sizeof line);
	for (u64 i = 0; i < value_length; i++) {
		if (value[i] == ',') {
			fields++;
			column = 0;
			if (fields == FIELDS)
				return 1;
		} else if (column < WIDTH) {
			line[fields * WIDTH + column] = value[i];
			column++;
		}
	}
	return emit_value(0, line, (fields + 1) * WIDTH);
}
