/* A value is a header of cookies as `a=1; session=abc; b=2`, of up to 150 bytes. Gives the record the value of the cookie "session" as key.
 *
 * k | a=1; session=abc; b=2 -> 0 abc | a=1; session=abc; b=2
 * k | session=x -> 0 x | session=x
 * k | mysession=x; session=y -> 0 y | mysession=x; session=y
 * k | a=1 -> reject 1
 * k | session= -> 0 | session= */
#include "klog.h"

#define NAME "session="

u64 transform(const u8 *value, u64 value_length, const u8 *key, u64 key_length, u64 nulls)
{
	u64 at = 0;
	const u64 size = sizeof(NAME) - 1;

	if (value_length > 150)
		return 2;
	for (;;) {
		while (at < value_length && value[at] == ' ')
			at++;
		if (at + size > value_length)
			return 1;
		if (memcmp(value + at, NAME, size) == 0)
			break;
		while (at < value_length && value[at] != ';')
			at++;
		at++;
	}

	u64 start = at + size, end = start;

	while (end < value_length && value[end] != ';')
		end++;
	return emit(0, value + start, end - start, value, value_length);
}
