/* Compares a row before and after a change, two lists of up to ten columns with commas, with a semicolon between them, and emits the
 * numbers of the columns that changed, from 0. A row in which nothing changed goes to output 1 as it is.
 *
 * k | 1,bo,5;1,bo,7 -> 0 k | 2
 * k | a,b,c;x,b,y -> 0 k | 0,2
 * k | a,b;a,b -> 1 k | a,b;a,b
 * k | a,;a,b -> 0 k | 1
 * k | a,b;a -> reject 11
 * k | ab -> reject 10 */
#include "klog_parts.h"

#define MOST_COLUMNS 10
#define MOST_LENGTH 64

/* Where the next column begins, and where the row ends. */
struct cursor {
	u64 at, end;
};

static int at_end(const struct cursor *row)
{
	return row->at > row->end;
}

static struct span next_column(struct cursor *row)
{
	struct span column = {1, row->at, row->end - row->at};
	u64 comma = find(VALUE, row->at, ",", 1);

	if (comma && comma - 1 < row->end)
		column.length = comma - 1 - row->at;
	row->at += column.length + 1;
	return column;
}

static int same(struct span a, struct span b)
{
	u8 text[MOST_LENGTH];

	if (a.length != b.length)
		return 0;
	load_value(text, a.at, a.length);
	return equals(VALUE, b.at, text, b.length);
}

u64 transform(const u8 *value, u64 value_length, const u8 *key, u64 key_length, u64 nulls)
{
	u64 semicolon = find(VALUE, 0, ";", 1), length = 0;
	struct cursor before = {0, semicolon - 1}, after = {semicolon, value_length};
	char list[2 * MOST_COLUMNS];

	if (semicolon == 0)
		return 10;
	for (int i = 0; i < MOST_COLUMNS && !at_end(&before) && !at_end(&after); i++) {
		struct span old = next_column(&before), new = next_column(&after);

		if (old.length > MOST_LENGTH || new.length > MOST_LENGTH)
			return 12;
		if (same(old, new))
			continue;
		if (length > 0)
			list[length++] = ',';
		list[length++] = '0' + i;
	}
	if (!at_end(&before) || !at_end(&after))
		return 11;
	return length == 0 ? emit_record(1) : emit_value(0, list, length);
}
