/* Routes card payments by the brand that the first four digits of the card's number tell: Visa to output 0, Mastercard to 1, American
 * Express to 2, all others to 3.
 *
 * k | 4111111111111111 -> 0 k | 4111111111111111
 * k | 5500000000000004 -> 1 k | 5500000000000004
 * k | 2720990000000007 -> 1 k | 2720990000000007
 * k | 378282246310005 -> 2 k | 378282246310005
 * k | 6011000990139424 -> 3 k | 6011000990139424
 * k | none -> reject 10 */
#include "klog_parts.h"

u64 transform(const u8 *value, u64 value_length, const u8 *key, u64 key_length, u64 nulls)
{
	u64 prefix = decimal(VALUE, 0, 4);

	if (prefix == 0)
		return 10;
	prefix--;
	if (prefix / 1000 == 4)
		return emit_record(0);
	if ((prefix >= 5100 && prefix <= 5599) || (prefix >= 2221 && prefix <= 2720))
		return emit_record(1);
	if (prefix / 100 == 34 || prefix / 100 == 37)
		return emit_record(2);
	return emit_record(3);
}
