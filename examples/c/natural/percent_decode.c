/* A value of up to 60 bytes is decoded as in a URL: %HH is a byte and + a space.
 *
 * k | a%20b+c -> 0 k | a b c
 * k | %41%6a -> 0 k | Aj
 * k | 100% -> reject 11
 * k | %4g -> reject 11
 * k | x*61 -> reject 10
 * k | null -> 0 k | hex: */
#include "klog.h"

static int digit(u8 c)
{
	switch (c) {
	case '0' ... '9':
		return c - '0';
	case 'a' ... 'f':
		return c - 'a' + 10;
	case 'A' ... 'F':
		return c - 'A' + 10;
	}
	return -1;
}

u64 transform(const u8 *value, u64 value_length, const u8 *key, u64 key_length, u64 nulls)
{
	u8 out[60];
	u64 n = 0, i = 0;

	if (value_length > sizeof out)
		return 10;
	while (i < value_length) {
		if (value[i] == '%') {
			if (i + 2 >= value_length)
				return 11;

			int high = digit(value[i + 1]), low = digit(value[i + 2]);

			if (high < 0 || low < 0)
				return 11;
			out[n++] = high << 4 | low;
			i += 3;
		} else {
			out[n++] = value[i] == '+' ? ' ' : value[i];
			i++;
		}
	}
	return emit_value(0, out, n);
}
