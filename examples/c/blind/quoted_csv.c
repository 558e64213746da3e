/* Emits the second field of a line of CSV, in which fields may stand in quotes and a quote in these is doubled (RFC 4180). A line of over
 * 200 bytes, or one without a second field, or in which a quote isn't closed, is rejected with 10.
 *
 * k | 1,plain,2 -> 0 k | plain
 * k | 1,"a ""b"" c",2 -> 0 k | a "b" c
 * k | "x,y",z -> 0 k | z
 * k | 1,"Doe, Jane" -> 0 k | Doe, Jane
 * k | 1,,2 -> 0 k |
 * k | "1,2" -> reject 10
 * k | 1,"open -> reject 10 */
#include "klog.h"

#define MOST 200
#define WANTED 1

u64 transform(const u8 *value, u64 value_length, const u8 *key, u64 key_length, u64 nulls)
{
	enum { PLAIN, QUOTED, QUOTE_IN_QUOTED } state = PLAIN;
	u8 text[MOST];
	u64 length = 0;
	int column = 0;

	if (value_length > MOST)
		return 10;
	for (u64 i = 0; i < value_length && column <= WANTED; i++) {
		u8 c = value[i];

		switch (state) {
		case QUOTED:
			if (c == '"') {
				state = QUOTE_IN_QUOTED;
				continue;
			}
			break;
		case QUOTE_IN_QUOTED:
			if (c == '"') {
				state = QUOTED;
				break;
			}
			state = PLAIN;
			/* fall through */
		case PLAIN:
			if (c == ',') {
				column++;
				continue;
			}
			if (c == '"') {
				state = QUOTED;
				continue;
			}
			break;
		}
		if (column == WANTED)
			text[length++] = c;
	}
	if (column < WANTED || state == QUOTED)
		return 10;
	return emit_value(0, text, length);
}
