/* Decodes a value in which bytes are written as % and two hexadecimal digits, and spaces as +. Values of over 300 bytes are rejected with
 * 10, a % without two digits with 11.
 *
 * k | a%20b+c -> 0 k | a b c
 * k | 100%25 -> 0 k | 100%
 * k | q=caf%C3%a9 -> 0 k | q=café
 * k | %zz -> reject 11
 * k | %4 -> reject 11 */
#include "klog.h"

#define MOST 300

static int hex_digit(u8 c)
{
	switch (c) {
	case '0' ... '9':
		return c - '0';
	case 'a' ... 'f':
		return c - 'a' + 10;
	case 'A' ... 'F':
		return c - 'A' + 10;
	}
	return -1;
}

u64 transform(const u8 *value, u64 value_length, const u8 *key, u64 key_length, u64 nulls)
{
	u8 text[MOST], *out = text;
	const u8 *in = value, *end = value + value_length;

	if (value_length > MOST)
		return 10;
	while (in < end) {
		u8 c = *in++;

		if (c == '+') {
			c = ' ';
		} else if (c == '%') {
			if (end - in < 2)
				return 11;

			int high = hex_digit(in[0]), low = hex_digit(in[1]);

			if (high < 0 || low < 0)
				return 11;
			c = high << 4 | low;
			in += 2;
		}
		*out++ = c;
	}
	return emit_value(0, text, out - text);
}
