/* Reads the second track of a card's magnetic stripe, ";NUMBER=YYMMSSS...?", and emits its masked number, when it expires and
 * its service code. Cards whose service code begins with 2 or 6 have a chip and go to output 1, others to output 0.
 *
 * pos1 | ;4111222233334444=25121010000? -> 0 pos1 | 411122*****\x2a4444 exp 12/25 svc 101
 * pos1 | ;5555444433332222=2703201? -> 1 pos1 | 555544*****\x2a2222 exp 03/27 svc 201
 * pos1 | ;4111222233334444=25131010000? -> reject 12
 * pos1 | ;41111111=25121010000? -> reject 11
 * pos1 | ;4111x22233334444=25121010000? -> reject 11
 * pos1 | ;4111222233334444=2512? -> reject 12
 * pos1 | 4111111111111111 -> reject 10 */
#include "klog.h"

static int all_digits(const u8 *text, u64 length)
{
	for (u64 i = 0; i < length; i++)
		if (text[i] < '0' || text[i] > '9')
			return 0;
	return 1;
}

u64 transform(const u8 *value, u64 value_length, const u8 *key, u64 key_length, u64 nulls)
{
	if (value_length < 3 || value_length > 40 || value[0] != ';' || value[value_length - 1] != '?')
		return 10;

	const u8 *separator = memchr(value, '=', value_length);

	if (!separator)
		return 10;

	const u8 *number = value + 1;
	u64 number_length = separator - number;

	if (number_length < 12 || number_length > 19 || !all_digits(number, number_length))
		return 11;

	const u8 *rest = separator + 1;
	u64 rest_length = value_length - number_length - 3;

	if (rest_length < 7 || !all_digits(rest, 7))
		return 12;

	int month = (rest[2] - '0') * 10 + (rest[3] - '0');

	if (month < 1 || month > 12)
		return 12;

	u8 text[48];
	u64 length = number_length;

	memcpy(text, number, 6);
	memset(text + 6, '*', number_length - 10);
	memcpy(text + number_length - 4, number + number_length - 4, 4);

	memcpy(text + length, " exp ", 5);
	length += 5;
	memcpy(text + length, rest + 2, 2);
	length += 2;
	text[length++] = '/';
	memcpy(text + length, rest, 2);
	length += 2;
	memcpy(text + length, " svc ", 5);
	length += 5;
	memcpy(text + length, rest + 4, 3);
	length += 3;

	return emit_value(rest[4] == '2' || rest[4] == '6' ? 1 : 0, text, length);
}
