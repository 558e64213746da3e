/* Counts the characters of a value, of at most 200 bytes, by their class and emits the counts, for a report on the quality of texts that
 * people type in. A longer value is rejected with 10.
 *
 * k | Hello World 42! -> 0 k | upper=2 lower=8 digit=2 space=2 other=1
 * k | abc -> 0 k | upper=0 lower=3 digit=0 space=0 other=0
 * k | ABCDEFGHIJKL -> 0 k | upper=12 lower=0 digit=0 space=0 other=0
 * k | -> 0 k | upper=0 lower=0 digit=0 space=0 other=0 */
#include "klog.h"

#define MOST 200

enum class { UPPER, LOWER, DIGIT, SPACE, OTHER, CLASSES };

static const char names[CLASSES][8] = {"upper=", "lower=", "digit=", "space=", "other="};

static enum class class_of(u8 c)
{
	if (c >= 'A' && c <= 'Z')
		return UPPER;
	if (c >= 'a' && c <= 'z')
		return LOWER;
	if (c >= '0' && c <= '9')
		return DIGIT;
	if (c == ' ' || (c >= '\t' && c <= '\r'))
		return SPACE;
	return OTHER;
}

static char *put_text(char *out, const char *text)
{
	while (*text)
		*out++ = *text++;
	return out;
}

static char *put_number(char *out, unsigned number)
{
	if (number >= 100)
		*out++ = '0' + number / 100;
	if (number >= 10)
		*out++ = '0' + number / 10 % 10;
	*out++ = '0' + number % 10;
	return out;
}

u64 transform(const u8 *value, u64 value_length, const u8 *key, u64 key_length, u64 nulls)
{
	unsigned counts[CLASSES] = {0};
	char report[CLASSES * 10], *end = report;

	if (value_length > MOST)
		return 10;
	for (u64 i = 0; i < value_length; i++)
		counts[class_of(value[i])]++;
	for (int i = 0; i < CLASSES; i++) {
		if (i > 0)
			*end++ = ' ';
		end = put_text(end, names[i]);
		end = put_number(end, counts[i]);
	}
	return emit_value(0, report, end - report);
}
