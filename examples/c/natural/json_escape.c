/* Emits a value of up to 40 bytes as a text of JSON: in quotes, with " and \ escaped, and control characters as \u00HH.
 *
 * k | say "hi" -> 0 k | "say \\"hi\\""
 * k | a\\b -> 0 k | "a\\\\b"
 * k | \n -> 0 k | "\\u000a"
 * k | null -> 0 k | ""
 * k | x*41 -> reject 10 */
#include "klog.h"

u64 transform(const u8 *value, u64 value_length, const u8 *key, u64 key_length, u64 nulls)
{
	static const char hex[] = "0123456789abcdef";
	char out[40 * 6 + 2];
	u64 n = 0;

	if (value_length > 40)
		return 10;
	out[n++] = '"';
	for (u64 i = 0; i < value_length; i++) {
		u8 c = value[i];

		if (c == '"' || c == '\\') {
			out[n++] = '\\';
			out[n++] = c;
		} else if (c < 0x20) {
			memcpy(out + n, "\\u00", 4);
			out[n + 4] = hex[c >> 4];
			out[n + 5] = hex[c & 15];
			n += 6;
		} else {
			out[n++] = c;
		}
	}
	out[n++] = '"';
	return emit_value(0, out, n);
}
