/* Looks at the header "retries", a decimal number: new payments go to output 0, those that were tried again to output 1, and those that
 * failed five times or more to output 2, the dead letters. A payment without a value is rejected.
 *
 * k | pay 10 EUR -> 0 k | pay 10 EUR
 * k | x -> 0 k | x
 * null | pay 7 USD -> 0 null | pay 7 USD
 * k | -> reject 12 */
#include "klog_parts.h"

#define MOST 5

u64 transform(const u8 *value, u64 value_length, const u8 *key, u64 key_length, u64 nulls)
{
	u64 position = header("retries", 7), length, count;

	if (value_length == 0)
		return 12;
	if (position == 0)
		return emit_record(0);
	length = part_length(HEADER_VALUE(position - 1));
	if (length < 3 || length > 11)
		return 10;
	count = decimal(HEADER_VALUE(position - 1), 0, length - 2);
	if (count == 0)
		return 11;
	return emit_record(count - 1 >= MOST ? 2 : 1);
}
