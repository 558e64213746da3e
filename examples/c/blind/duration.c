/* Turns a duration such as 1h30m5s into a number of seconds.
 *
 * k | 1h30m5s -> 0 k | 5405
 * k | 45s -> 0 k | 45
 * k | 2d -> 0 k | 172800
 * k | 0m -> 0 k | 0
 * k | 1h30 -> reject 12
 * k | h -> reject 11
 * k | 10x -> reject 11
 * k | -> reject 10 */
#include "klog.h"

static u64 write_number(char *text, u64 n)
{
	char reversed[20];
	u64 length = 0;

	do {
		reversed[length++] = '0' + n % 10;
		n /= 10;
	} while (n > 0);
	for (u64 i = 0; i < length; i++)
		text[i] = reversed[length - 1 - i];
	return length;
}

u64 transform(const u8 *value, u64 value_length, const u8 *key, u64 key_length, u64 nulls)
{
	char text[20];
	u64 seconds = 0, number = 0, digits = 0;

	if (value_length == 0 || value_length > 24)
		return 10;
	for (u64 i = 0; i < value_length; i++) {
		u8 c = value[i];

		if (c >= '0' && c <= '9') {
			number = number * 10 + (c - '0');
			if (++digits > 9)
				return 12;
			continue;
		}
		if (digits == 0)
			return 11;
		switch (c) {
		case 'd': seconds += number * 86400; break;
		case 'h': seconds += number * 3600; break;
		case 'm': seconds += number * 60; break;
		case 's': seconds += number; break;
		default: return 11;
		}
		number = digits = 0;
	}
	if (digits > 0)
		return 12;
	return emit_value(0, text, write_number(text, seconds));
}
