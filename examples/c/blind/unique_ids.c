/* Takes the repeated numbers out of a list with commas of at most 16, and keeps the first of each as it is written; 007 and 7 are the
 * same. A longer list, one of over 200 bytes, or one with something else than numbers of 1 to 18 digits is rejected with 10.
 *
 * k | 7,3,7,9,3 -> 0 k | 7,3,9
 * k | 007,7,70 -> 0 k | 007,70
 * k | 5 -> 0 k | 5
 * k | 1,a,2 -> reject 10
 * k | 1,,2 -> reject 10
 * k | -> reject 10 */
#include "klog_parts.h"

#define MOST 16
#define MOST_BYTES 200

static int contains_number(const u64 *numbers, int count, u64 number)
{
	for (int i = 0; i < count; i++)
		if (numbers[i] == number)
			return 1;
	return 0;
}

u64 transform(const u8 *value, u64 value_length, const u8 *key, u64 key_length, u64 nulls)
{
	u64 seen[MOST];
	u8 list[MOST_BYTES];
	u64 length = 0, at = 0;
	int count = 0, fields = 0;

	if (value_length > MOST_BYTES)
		return 10;
	for (;;) {
		u64 comma = find(VALUE, at, ",", 1);
		u64 end = comma ? comma - 1 : value_length;
		u64 digits = end - at;

		if (fields++ == MOST || digits < 1 || digits > 18)
			return 10;

		u64 number = decimal(VALUE, at, digits);

		if (number == 0)
			return 10;
		if (!contains_number(seen, count, number)) {
			seen[count++] = number;
			if (length > 0)
				list[length++] = ',';
			memcpy(list + length, value + at, digits);
			length += digits;
		}
		if (!comma)
			break;
		at = end + 1;
	}
	return emit_value(0, list, length);
}
