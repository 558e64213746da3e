/* Sends a value that is a card's number, of 8 to 19 digits between which spaces and dashes may stand, to output 0 if its check digit is
 * right (Luhn), else to output 1. What is no such number is rejected with 10.
 *
 * k | 4111111111111111 -> 0 k | 4111111111111111
 * k | 5500-0000-0000-0004 -> 0 k | 5500-0000-0000-0004
 * k | 7992 7398 713 -> 0 k | 7992 7398 713
 * k | 79927398710 -> 1 k | 79927398710
 * k | 4111111 -> reject 10
 * k | 4111x11111111111 -> reject 10 */
#include "klog.h"

#define FEWEST_DIGITS 8
#define MOST_DIGITS 19
#define LONGEST 40

u64 transform(const u8 *value, u64 value_length, const u8 *key, u64 key_length, u64 nulls)
{
	unsigned sum = 0, digits = 0;

	if (value_length > LONGEST)
		return 10;
	for (u64 i = value_length; i-- > 0;) {
		u8 c = value[i];

		if (c == ' ' || c == '-')
			continue;
		if (c < '0' || c > '9')
			return 10;

		unsigned digit = c - '0';

		if (digits++ % 2 == 1) {
			digit *= 2;
			if (digit > 9)
				digit -= 9;
		}
		sum += digit;
	}
	if (digits < FEWEST_DIGITS || digits > MOST_DIGITS)
		return 10;
	return emit_record(sum % 10 == 0 ? 0 : 1);
}
