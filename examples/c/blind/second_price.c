/* Settles an auction for an ad: the value lists bids in cents, as "nike:120,puma:300". The highest bid of at least 50 wins, and
 * pays one cent more than the second or 50, but not more than it bid. Emits the winner as the key and the price as the value.
 *
 * slot | nike:120,puma:300,asics:250 -> 0 puma | 251
 * slot | nike:120 -> 0 nike | 50
 * slot | nike:300,puma:300 -> 0 nike | 300
 * slot | nike:40,puma:20 -> nothing
 * slot | nike:40,puma:90 -> 0 puma | 50
 * slot | nike -> reject 31
 * slot | nike:12a -> reject 31
 * slot | nike:9999999 -> reject 32 */
#include "klog.h"

#define RESERVE 50
#define HIGHEST 1000000

struct bid {
	u64 name_at, name_length, cents;
};

static u64 put_number(u8 *to, u64 number)
{
	u8 digits[20];
	u64 count = 0, length = 0;

	do {
		digits[count++] = '0' + number % 10;
		number /= 10;
	} while (number > 0);
	while (count > 0)
		to[length++] = digits[--count];
	return length;
}

u64 transform(const u8 *value, u64 value_length, const u8 *key, u64 key_length, u64 nulls)
{
	struct bid best = {0, 0, 0}, now = {0, 0, 0};
	u64 second = RESERVE - 1, digits = 0;
	int in_number = 0;

	if (value_length > 128)
		return 30;

	for (u64 i = 0; i <= value_length; i++) {
		u8 c = i < value_length ? value[i] : ',';

		if (c == ',') {
			if (!in_number || digits == 0)
				return 31;
			if (now.cents >= RESERVE && now.cents > best.cents) {
				if (best.cents > second)
					second = best.cents;
				best = now;
			} else if (now.cents > second) {
				second = now.cents;
			}
			now = (struct bid){i + 1, 0, 0};
			in_number = 0;
			digits = 0;
		} else if (in_number) {
			if (c < '0' || c > '9')
				return 31;
			now.cents = now.cents * 10 + (c - '0');
			if (now.cents > HIGHEST)
				return 32;
			digits++;
		} else if (c == ':') {
			in_number = 1;
			now.name_length = i - now.name_at;
		}
	}
	if (best.cents == 0)
		return 0;

	u64 price = second + 1 < best.cents ? second + 1 : best.cents;
	u8 text[20];
	u64 length = put_number(text, price);

	return emit(0, value + best.name_at, best.name_length, text, length);
}
