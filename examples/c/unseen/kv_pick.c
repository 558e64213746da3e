/* A value is a list of NAME=TEXT with semicolons between them. Emits the text of the name that the key is.
 *
 * city | name=Ann;city=Bonn;zip=53111 -> 0 city | Bonn
 * zip | name=Ann;city=Bonn;zip=53111 -> 0 zip | 53111
 * nam | name=Ann -> reject 2
 * name | name= -> 0 name | hex:
 * x | hex: -> reject 2
 */
#include "klog.h"

u64 transform(const u8 *value, u64 value_length, const u8 *key, u64 key_length, u64 nulls)
{
	u64 start = 0;

	if (value_length > 256 || key_length > 32)
		return 1;
	while (start < value_length) {
		u64 end = start;
		while (end < value_length && value[end] != ';')
			end++;
		u64 equals = start;
		while (equals < end && value[equals] != '=')
			equals++;
		if (equals < end && equals - start == key_length && memcmp(value + start, key, key_length) == 0)
			return emit_value(0, value + equals + 1, end - equals - 1);
		start = end + 1;
	}
	return 2;
}
