/* A key is an ISBN of 10 or 13 digits, perhaps with hyphens. Sends records with a right check digit to output 0, and others to output 1.
 *
 * 3-16-148410-X | a -> 0 3-16-148410-X | a
 * 0306406152 | a -> 0 0306406152 | a
 * 0306406153 | a -> 1 0306406153 | a
 * 978-3-16-148410-0 | a -> 0 978-3-16-148410-0 | a
 * 978-3-16-148410-1 | a -> 1 978-3-16-148410-1 | a
 * 12345 | a -> 1 12345 | a */
#include "klog.h"

static int is_right_10(const u8 *digits)
{
	int sum = 0;

	for (int i = 0; i < 10; i++)
		sum += (10 - i) * digits[i];
	return sum % 11 == 0;
}

static int is_right_13(const u8 *digits)
{
	int sum = 0;

	for (int i = 0; i < 13; i++) {
		if (digits[i] > 9)
			return 0;
		sum += digits[i] * (i % 2 ? 3 : 1);
	}
	return sum % 10 == 0;
}

u64 transform(const u8 *value, u64 value_length, const u8 *key, u64 key_length, u64 nulls)
{
	u8 digits[13];
	u64 count = 0;

	if (key_length > 17)
		return emit_record(1);
	for (u64 i = 0; i < key_length; i++) {
		u8 c = key[i];

		if (c == '-')
			continue;
		if (count == 13)
			return emit_record(1);
		if (c >= '0' && c <= '9')
			digits[count++] = c - '0';
		else if (c == 'X' && count == 9)
			digits[count++] = 10;
		else
			return emit_record(1);
	}
	if (count == 10 && is_right_10(digits))
		return emit_record(0);
	if (count == 13 && is_right_13(digits))
		return emit_record(0);
	return emit_record(1);
}
