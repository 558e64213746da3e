/* Emits how many letters, digits, spaces and other bytes a value of up to 100 bytes has, as 4 bytes.
 *
 * k | Hello 12! -> 0 k | hex:05020101
 * k | -> 0 k | hex:00000000
 * k | a*101 -> reject 1 */
#include "klog.h"

enum kind { LETTER, DIGIT, SPACE, OTHER };

static enum kind kind_of(u8 c)
{
	if ((c >= 'a' && c <= 'z') || (c >= 'A' && c <= 'Z'))
		return LETTER;
	if (c >= '0' && c <= '9')
		return DIGIT;
	if (c == ' ' || c == '\t' || c == '\n')
		return SPACE;
	return OTHER;
}

u64 transform(const u8 *value, u64 value_length, const u8 *key, u64 key_length, u64 nulls)
{
	u8 counts[4] = {0};

	if (value_length > 100)
		return 1;
	for (u64 i = 0; i < value_length; i++)
		counts[kind_of(value[i])]++;
	return emit_value(0, counts, sizeof(counts));
}
