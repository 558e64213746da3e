/* Splits a JSON array of up to 16 numbers, written without spaces, into a record for each number.
 *
 * k | [1,2,3] -> 0 k | 1 + 0 k | 2 + 0 k | 3
 * k | [-4.5,1e3] -> 0 k | -4.5 + 0 k | 1e3
 * k | [7] -> 0 k | 7
 * k | [1,,2] -> reject 11
 * k | [1,x] -> reject 12
 * k | [] -> reject 10
 * k | [1,1,1,1,1,1,1,1,1,1,1,1,1,1,1,1,1] -> reject 13 */
#include "klog.h"

static int of_number(u8 c)
{
	switch (c) {
	case '0' ... '9':
	case '-':
	case '+':
	case '.':
	case 'e':
	case 'E':
		return 1;
	default:
		return 0;
	}
}

u64 transform(const u8 *value, u64 value_length, const u8 *key, u64 key_length, u64 nulls)
{
	u64 start = 1, end;

	if (value_length < 3 || value_length > 160)
		return 10;
	end = value_length - 1;
	if (value[0] != '[' || value[end] != ']')
		return 10;
	for (u64 i = 1; i <= end; i++) {
		if (i < end && value[i] != ',') {
			if (!of_number(value[i]))
				return 12;
			continue;
		}
		if (i == start)
			return 11;
		if (emit_value(0, value + start, i - start) != 0)
			return 13;
		start = i + 1;
	}
	return 0;
}
