/* Checks an IBAN, which may have spaces and small letters, and emits it without spaces and in capital letters. The check is that of
 * ISO 13616: with its first four characters put last and letters as 10 to 35 it leaves 1 when divided by 97.
 *
 * k | GB82 WEST 1234 5698 7654 32 -> 0 k | GB82WEST12345698765432
 * k | DE89370400440532013000 -> 0 k | DE89370400440532013000
 * k | de89 3704 0044 0532 0130 00 -> 0 k | DE89370400440532013000
 * k | FR1420041010050500013M02606 -> 0 k | FR1420041010050500013M02606
 * k | GB82 WEST 1234 5698 7654 33 -> reject 13
 * k | GB82-WEST-1234-5698 -> reject 11
 * k | DE12 -> reject 12
 * k | -> reject 10 */
#include "klog.h"

#define SHORTEST 15
#define LONGEST 34

static u8 to_upper(u8 c)
{
	return c >= 'a' && c <= 'z' ? c - 'a' + 'A' : c;
}

static int is_digit(u8 c)
{
	return c >= '0' && c <= '9';
}

static int is_capital(u8 c)
{
	return c >= 'A' && c <= 'Z';
}

static u32 add_mod97(u32 rest, u8 c)
{
	if (is_digit(c))
		return (rest * 10 + (c - '0')) % 97;
	return (rest * 100 + (c - 'A' + 10)) % 97;
}

u64 transform(const u8 *value, u64 value_length, const u8 *key, u64 key_length, u64 nulls)
{
	u8 iban[LONGEST];
	u64 length = 0;
	u32 rest = 0;

	if (value_length == 0 || value_length > 48)
		return 10;
	for (u64 i = 0; i < value_length; i++) {
		u8 c = to_upper(value[i]);

		if (c == ' ')
			continue;
		if (!is_digit(c) && !is_capital(c))
			return 11;
		if (length == LONGEST)
			return 12;
		iban[length++] = c;
	}
	if (length < SHORTEST)
		return 12;

	for (u64 i = 4; i < length; i++)
		rest = add_mod97(rest, iban[i]);
	for (u64 i = 0; i < 4; i++)
		rest = add_mod97(rest, iban[i]);
	if (rest != 1)
		return 13;
	return emit_value(0, iban, length);
}
