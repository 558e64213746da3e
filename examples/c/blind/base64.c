/* Decodes a value that is base64 with padding, of at most 256 digits. Anything else is rejected with 10.
 *
 * k | SGVsbG8= -> 0 k | Hello
 * k | TWFu -> 0 k | Man
 * k | TQ== -> 0 k | M
 * k | -> 0 k |
 * k | TWF -> reject 10
 * k | T=== -> reject 10
 * k | TQ==TWFu -> reject 10
 * k | TW#u -> reject 10 */
#include "klog.h"

#define MOST 256

static int sextet(u8 c)
{
	if (c >= 'A' && c <= 'Z')
		return c - 'A';
	if (c >= 'a' && c <= 'z')
		return c - 'a' + 26;
	if (c >= '0' && c <= '9')
		return c - '0' + 52;
	if (c == '+')
		return 62;
	if (c == '/')
		return 63;
	return -1;
}

u64 transform(const u8 *value, u64 value_length, const u8 *key, u64 key_length, u64 nulls)
{
	u8 out[MOST / 4 * 3];
	u64 length = 0, digits = value_length;
	u32 bits = 0;
	int count = 0;

	if (value_length > MOST || value_length % 4 != 0)
		return 10;
	for (int i = 0; i < 2 && digits > 0 && value[digits - 1] == '='; i++)
		digits--;
	for (u64 i = 0; i < digits; i++) {
		int six = sextet(value[i]);

		if (six < 0)
			return 10;
		bits = bits << 6 | six;
		count += 6;
		if (count >= 8) {
			count -= 8;
			out[length++] = bits >> count;
		}
	}
	return emit_value(0, out, length);
}
