/* Turns an amount such as "EUR 15.00" into the smallest units of its currency, of which a table knows how many decimals it has.
 *
 * k | EUR 15.00 -> 0 k | EUR 1500
 * k | JPY 980 -> 0 k | JPY 980
 * k | KWD 1.5 -> 0 k | KWD 1500
 * k | USD 0.07 -> 0 k | USD 7
 * k | CHF 1000000 -> 0 k | CHF 100000000
 * k | EUR 1.234 -> reject 13
 * k | JPY 9.5 -> reject 13
 * k | EUR 1,50 -> reject 12
 * k | XXX 5 -> reject 11
 * k | EUR -> reject 10 */
#include "klog.h"

struct currency {
	char code[4];
	u32 decimals;
};

static const struct currency currencies[] = {
	{"EUR", 2}, {"USD", 2}, {"GBP", 2}, {"CHF", 2}, {"JPY", 0}, {"KRW", 0}, {"KWD", 3}, {"BHD", 3},
};

static const struct currency *find_currency(const u8 *code)
{
	for (u64 i = 0; i < sizeof currencies / sizeof currencies[0]; i++)
		if (memcmp(currencies[i].code, code, 3) == 0)
			return &currencies[i];
	return NULL;
}

u64 transform(const u8 *value, u64 value_length, const u8 *key, u64 key_length, u64 nulls)
{
	const struct currency *currency;
	char text[4 + 20], digits[20];
	u64 amount = 0, count = 0, length = 4;
	u32 decimals = 0;
	int point = 0;

	if (value_length < 5 || value_length > 4 + 13 || value[3] != ' ')
		return 10;
	currency = find_currency(value);
	if (currency == NULL)
		return 11;
	for (u64 i = 4; i < value_length; i++) {
		if (value[i] == '.' && !point && i > 4) {
			point = 1;
			continue;
		}
		if (value[i] < '0' || value[i] > '9')
			return 12;
		amount = amount * 10 + (value[i] - '0');
		decimals += point;
	}
	if (decimals > currency->decimals || (point && decimals == 0))
		return 13;
	for (; decimals < currency->decimals; decimals++)
		amount *= 10;

	memcpy(text, value, 4);
	do {
		digits[count++] = '0' + amount % 10;
		amount /= 10;
	} while (amount > 0);
	while (count > 0)
		text[length++] = digits[--count];
	return emit_value(0, text, length);
}
