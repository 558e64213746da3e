/* A value is up to 64 letters of base32 (A to Z and 2 to 7), with = at its end. Emits the bytes that they are.
 *
 * k | MZXW6YTBOI====== -> 0 k | foobar
 * k | MY====== -> 0 k | f
 * k | MZXW6YTB -> 0 k | fooba
 * k | | -> reject 11
 * k | MZXW1 -> reject 11
 * k | A*65 -> reject 10 */
#include "klog.h"

u64 transform(const u8 *value, u64 value_length, const u8 *key, u64 key_length, u64 nulls)
{
	u8 decoded[40];
	u64 length = 0;
	u32 bits = 0, count = 0;

	if (value_length > 64)
		return 10;
	for (u64 i = 0; i < value_length; i++) {
		u8 c = value[i];

		if (c == '=')
			break;
		if (c >= 'A' && c <= 'Z')
			c -= 'A';
		else if (c >= '2' && c <= '7')
			c = c - '2' + 26;
		else
			return 11;
		bits = bits << 5 | c;
		count += 5;
		if (count >= 8) {
			count -= 8;
			decoded[length++] = bits >> count;
		}
	}
	return emit_value(0, decoded, length);
}
