/* A value is up to 32 characters of UTF-16, little-endian, without surrogates. Emits them in UTF-8.
 *
 * k | hex:410042 -> reject 10
 * k | hex:41004200 -> 0 k | AB
 * k | hex:e400ac20 -> 0 k | \u00e4\u20ac
 * k | hex:00d8 -> reject 11
 * k | null -> 0 k | hex: */
#include "klog.h"

u64 transform(const u8 *value, u64 value_length, const u8 *key, u64 key_length, u64 nulls)
{
	u8 out[32 * 3];
	u32 n = 0;

	if (value_length > 64 || value_length % 2)
		return 10;
	for (u64 i = 0; i + 1 < value_length; i += 2) {
		u16 c = value[i] | value[i + 1] << 8;

		if (c >= 0xd800 && c < 0xe000)
			return 11;
		if (c < 0x80) {
			out[n++] = c;
		} else if (c < 0x800) {
			out[n++] = 0xc0 | c >> 6;
			out[n++] = 0x80 | (c & 0x3f);
		} else {
			out[n++] = 0xe0 | c >> 12;
			out[n++] = 0x80 | (c >> 6 & 0x3f);
			out[n++] = 0x80 | (c & 0x3f);
		}
	}
	return emit_value(0, out, n);
}
