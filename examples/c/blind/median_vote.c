/* Takes one to seven readings of redundant sensors, whole numbers with commas, and emits their median, the lower one of two.
 * Where the least and the greatest differ by over 10 they go to output 1 as they are. Another value is rejected with 10.
 *
 * k | 12,14,-3,13,12 -> 1 k | 12,14,-3,13,12
 * k | 12,14,9,13,12 -> 0 k | 12
 * k | -7 -> 0 k | -7
 * k | 3,-1,0,2 -> 0 k | 0
 * k | 1,,2 -> reject 10
 * k | 1,2, -> reject 10
 * k | 1,2,3,4,5,6,7,8 -> reject 10
 * k | 12x -> reject 10
 * k | 1234567 -> reject 10 */
#include "klog.h"

#define MOST 7
#define MOST_DIGITS 6

static void insertion_sort(int *numbers, int count)
{
	for (int i = 1; i < count; i++) {
		int number = numbers[i], j = i;

		for (; j > 0 && numbers[j - 1] > number; j--)
			numbers[j] = numbers[j - 1];
		numbers[j] = number;
	}
}

/* Where the number ends, or NULL. */
static const u8 *parse_int(const u8 *at, const u8 *end, int *result)
{
	int negative = at < end && *at == '-', number = 0, digits = 0;

	for (at += negative; at < end && *at >= '0' && *at <= '9'; at++) {
		if (++digits > MOST_DIGITS)
			return NULL;
		number = number * 10 + (*at - '0');
	}
	*result = negative ? -number : number;
	return digits > 0 ? at : NULL;
}

static u64 put_int(char *out, int number)
{
	char digits[10];
	u64 n = 0, length = 0;
	unsigned rest = number < 0 ? -number : number;

	if (number < 0)
		out[length++] = '-';
	do
		digits[n++] = '0' + rest % 10;
	while (rest /= 10);
	while (n > 0)
		out[length++] = digits[--n];
	return length;
}

u64 transform(const u8 *value, u64 value_length, const u8 *key, u64 key_length, u64 nulls)
{
	const u8 *at = value, *end = value + value_length;
	int readings[MOST], count = 0;
	char text[16];

	for (;;) {
		if (count == MOST)
			return 10;
		at = parse_int(at, end, &readings[count++]);
		if (!at)
			return 10;
		if (at == end)
			break;
		if (*at++ != ',')
			return 10;
	}
	insertion_sort(readings, count);
	if (readings[count - 1] - readings[0] > 10)
		return emit_record(1);
	return emit_value(0, text, put_int(text, readings[(count - 1) / 2]));
}
