/* Splits a payment on a marketplace, given in cents: the platform (output 1) gets 2.9 per cent, rounded half up, and 30 cents,
 * and the seller (output 0) the rest. A refund is negative; then the platform gives its per cents back, not the 30 cents.
 *
 * ord1 | 10000 -> 0 ord1 | 96.80 + 1 ord1 | 3.20
 * ord2 | 1000 -> 0 ord2 | 9.41 + 1 ord2 | 0.59
 * ord3 | -1000 -> 0 ord3 | -9.71 + 1 ord3 | -0.29
 * ord4 | 20 -> 0 ord4 | -0.11 + 1 ord4 | 0.31
 * ord5 | 12x -> reject 10
 * ord6 | - -> reject 10 */
#include "klog.h"

static int emit_cents(u64 output, int cents)
{
	u8 text[16], digits[12];
	u64 length = 0, count = 0;
	u32 rest = cents < 0 ? -cents : cents;

	do {
		digits[count++] = '0' + rest % 10;
		rest /= 10;
	} while (rest > 0 || count < 3);

	if (cents < 0)
		text[length++] = '-';
	while (count > 0) {
		text[length++] = digits[--count];
		if (count == 2)
			text[length++] = '.';
	}
	return emit_value(output, text, length);
}

u64 transform(const u8 *value, u64 value_length, const u8 *key, u64 key_length, u64 nulls)
{
	u64 at = 0;
	int amount = 0, refund = 0, fee;

	if (value_length > 0 && value[0] == '-') {
		refund = 1;
		at = 1;
	}
	if (at == value_length || value_length - at > 7)
		return 10;
	for (; at < value_length; at++) {
		if (value[at] < '0' || value[at] > '9')
			return 10;
		amount = amount * 10 + (value[at] - '0');
	}

	fee = (amount * 29 + 500) / 1000;
	if (refund) {
		amount = -amount;
		fee = -fee;
	} else {
		fee += 30;
	}

	u64 failed = emit_cents(0, amount - fee);

	return failed ? failed : emit_cents(1, fee);
}
