/* Makes the customer of a value as "customer= ACME ;amount=5" the key, in lower case and without the spaces around it. A value without a
 * customer, or with one of over 80 characters, is rejected with 10, and a deletion has no place to go and is rejected with 11.
 *
 * k | customer= ACME ;amount=5 -> 0 acme | customer= ACME ;amount=5
 * k | id=3;customer=Big Corp;amount=5 -> 0 big corp | id=3;customer=Big Corp;amount=5
 * null | customer=x -> 0 x | customer=x
 * k | customer=  ;amount=5 -> reject 10
 * k | id=3 -> reject 10
 * k | null -> reject 11 */
#include "klog_parts.h"

#define LONGEST 80

static int is_space(u8 c)
{
	return c == ' ' || c == '\t';
}

static u8 to_lower(u8 c)
{
	return c >= 'A' && c <= 'Z' ? c + ('a' - 'A') : c;
}

u64 transform(const u8 *value, u64 value_length, const u8 *key, u64 key_length, u64 nulls)
{
	static const char name[] = "customer=";
	u8 customer[LONGEST];

	if (nulls & VALUE_IS_NULL)
		return 11;

	u64 at = find(VALUE, 0, name, sizeof name - 1);

	if (at == 0)
		return 10;

	u64 begin = at - 1 + sizeof name - 1, end = begin;

	while (end < value_length && value[end] != ';') {
		if (end - begin == LONGEST)
			return 10;
		end++;
	}
	while (begin < end && is_space(value[begin]))
		begin++;
	while (end > begin && is_space(value[end - 1]))
		end--;
	if (begin == end)
		return 10;
	for (u64 i = begin; i < end; i++)
		customer[i - begin] = to_lower(value[i]);
	return emit(0, customer, end - begin, value, value_length);
}
