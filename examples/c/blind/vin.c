/* Checks a vehicle's identification number by its check digit. A right one becomes the key of a record with the model year as
 * value and the maker's code in a header; one with a wrong digit goes to output 1 as it is.
 *
 * car | 1M8GDM9AXKP042788 -> 0 1M8GDM9AXKP042788 | 1989
 * car | 1*17 -> 0 1*17 | 2001
 * car | 5YJ3E1EA2KF317000 -> 0 5YJ3E1EA2KF317000 | 2019
 * car | 1M8GDM9A1KP042788 -> 1 car | 1M8GDM9A1KP042788
 * car | 1M8GDM9AXKP04278O -> reject 12
 * car | 1M8GDM9 -> reject 11 */
#include "klog_parts.h"

#define LENGTH 17

/* What A to Z count; I, O and Q aren't used. */
static const u8 letters[26] = {1, 2, 3, 4, 5, 6, 7, 8, 0, 1, 2, 3, 4, 5, 0, 7, 0, 9, 2, 3, 4, 5, 6, 7, 8, 9};
static const u8 weights[LENGTH] = {8, 7, 6, 5, 4, 3, 2, 10, 0, 9, 8, 7, 6, 5, 4, 3, 2};
static const char years[] = "ABCDEFGHJKLMNPRSTVWXY123456789";

static int worth(u8 c)
{
	if (c >= '0' && c <= '9')
		return c - '0';
	if (c < 'A' || c > 'Z' || letters[c - 'A'] == 0)
		return -1;
	return letters[c - 'A'];
}

u64 transform(const u8 *value, u64 value_length, const u8 *key, u64 key_length, u64 nulls)
{
	if (value_length != LENGTH)
		return 11;

	int sum = 0;

	for (int i = 0; i < LENGTH; i++) {
		int w = worth(value[i]);

		if (w < 0)
			return 12;
		sum += w * weights[i];
	}

	int check = sum % 11;

	if (value[8] != (check == 10 ? 'X' : '0' + check))
		return emit_record(1);

	const char *code = memchr(years, value[9], sizeof(years) - 1);

	if (!code)
		return 13;

	int year = 1980 + (int)(code - years);

	/* The codes began anew in 2010, when the seventh place became a letter. */
	if (value[6] >= 'A')
		year += 30;

	u8 text[4] = {'0' + year / 1000, '0' + year / 100 % 10, '0' + year / 10 % 10, '0' + year % 10};

	if (add_header("maker", 5, value, 3))
		return 14;
	return emit(0, value, LENGTH, text, sizeof(text));
}
