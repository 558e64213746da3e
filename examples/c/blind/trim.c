/* Cuts white space off both ends of the value. Values of over 200 bytes go to output 1 as they are.
 *
 * k | \x20\x20hello\x20 -> 0 k | hello
 * k | a\x20b\x0a -> 0 k | a\x20b
 * k | \x0d\x0a\x09ok -> 0 k | ok
 * k | pear -> 0 k | pear
 * k | a*300 -> 1 k | a*300 */
#include "klog.h"

static int is_space(u8 c)
{
	return c == ' ' || (c >= '\t' && c <= '\r');
}

u64 transform(const u8 *value, u64 value_length, const u8 *key, u64 key_length, u64 nulls)
{
	u64 start = 0, end = value_length;

	if (value_length > 200)
		return emit_record(1);
	while (start < end && is_space(value[start]))
		start++;
	while (end > start && is_space(value[end - 1]))
		end--;
	return emit_value(0, value + start, end - start);
}
