/* Tells how many bytes a range request delivers: the value is the object's size and the request's range, as in
 * "1000 bytes=0-499". A range outside the object is rejected with 16.
 *
 * v7 | 1000 bytes=0-499 -> 0 v7 | 500
 * v7 | 1000 bytes=900- -> 0 v7 | 100
 * v7 | 1000 bytes=-200 -> 0 v7 | 200
 * v7 | 1000 bytes=500-2000 -> 0 v7 | 500
 * v7 | 1000 bytes=1000-1200 -> reject 16
 * v7 | 1000 items=0-4 -> reject 10
 * v7 | 1000 bytes=- -> reject 10 */
#include "klog.h"

/* Reads a number of at most nine digits, moves the place behind it, and returns how many digits it has. */
static u64 read_number(const u8 *text, u64 length, u64 *at, u64 *number)
{
	u64 digits = 0;

	*number = 0;
	while (*at < length && digits < 9 && text[*at] >= '0' && text[*at] <= '9') {
		*number = *number * 10 + (text[*at] - '0');
		*at += 1;
		digits++;
	}
	return digits;
}

static u64 put_number(u8 *to, u64 number)
{
	u8 digits[10];
	u64 count = 0, length = 0;

	do {
		digits[count++] = '0' + number % 10;
		number /= 10;
	} while (number > 0);
	while (count > 0)
		to[length++] = digits[--count];
	return length;
}

u64 transform(const u8 *value, u64 value_length, const u8 *key, u64 key_length, u64 nulls)
{
	u64 at = 0, size, first, last;
	u8 text[10];

	if (read_number(value, value_length, &at, &size) == 0)
		return 10;
	if (value_length - at < 7 || memcmp(value + at, " bytes=", 7) != 0)
		return 10;
	at += 7;

	u64 has_first = read_number(value, value_length, &at, &first);

	if (at >= value_length || value[at] != '-')
		return 10;
	at++;

	u64 has_last = read_number(value, value_length, &at, &last);

	if (at != value_length || (!has_first && !has_last))
		return 10;
	if (size == 0)
		return 16;

	if (!has_first) {
		first = last < size ? size - last : 0;
		last = size - 1;
	} else if (!has_last || last >= size) {
		last = size - 1;
	}
	if (first > last)
		return 16;
	return emit_value(0, text, put_number(text, last - first + 1));
}
