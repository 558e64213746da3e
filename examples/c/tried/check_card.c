/* A value is a card number of 16 digits. Forwards it if its check digit is right (Luhn), and rejects others.
 *
 * k | 4111111111111111 -> 0 k | 4111111111111111
 * k | 4111111111111112 -> reject 2
 * k | 411111111111111x -> reject 1
 * k | 4111 -> reject 1 */
#include "klog.h"

u64 transform(const u8 *value, u64 value_length, const u8 *key, u64 key_length, u64 nulls)
{
	u64 sum = 0;

	if (value_length != 16)
		return 1;
	for (int i = 0; i < 16; i++) {
		u64 digit = value[i] - '0';

		if (digit > 9)
			return 1;
		if (i % 2 == 0)
			digit = digit > 4 ? 2 * digit - 9 : 2 * digit;
		sum += digit;
	}
	if (sum % 10 != 0)
		return 2;
	return emit_record(0);
}
