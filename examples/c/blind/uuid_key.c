/* Makes a key that is the text of a UUID the sixteen bytes that it writes, and forwards the value. A key of another form is rejected
 * with 10, and a deletion, which can't be emitted with another key, with 11.
 *
 * 61626364-6566-6768-696a-6b6c6d6e6f70 | x -> 0 abcdefghijklmnop | x
 * 41424344-4546-4748-494A-4B4C4D4E4F50 | y z -> 0 ABCDEFGHIJKLMNOP | y z
 * 6162636465666768696a6b6c6d6e6f70 | x -> reject 10
 * 6162636g-6566-6768-696a-6b6c6d6e6f70 | x -> reject 10
 * null | x -> reject 10
 * 61626364-6566-6768-696a-6b6c6d6e6f70 | null -> reject 11 */
#include "klog.h"

#define TEXT_LENGTH 36

static int hex_digit(u8 c)
{
	if (c >= '0' && c <= '9')
		return c - '0';
	c |= 0x20;
	return c >= 'a' && c <= 'f' ? c - 'a' + 10 : -1;
}

u64 transform(const u8 *value, u64 value_length, const u8 *key, u64 key_length, u64 nulls)
{
	u8 uuid[16];
	int n = 0;

	if (key_length != TEXT_LENGTH)
		return 10;
	if (nulls & VALUE_IS_NULL)
		return 11;
	for (int i = 0; i < TEXT_LENGTH;) {
		if (i == 8 || i == 13 || i == 18 || i == 23) {
			if (key[i++] != '-')
				return 10;
			continue;
		}

		int high = hex_digit(key[i]), low = hex_digit(key[i + 1]);

		if (high < 0 || low < 0)
			return 10;
		uuid[n++] = high << 4 | low;
		i += 2;
	}
	return emit(0, uuid, sizeof uuid, value, value_length);
}
