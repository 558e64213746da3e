/* Emits the first 16 bytes of a value as pairs of hexadecimal digits with a space between them.
 *
 * k | ABC -> 0 k | 41 42 43
 * k | hex:00ff -> 0 k | 00 ff
 * k | -> 0 k |
 * k | 0123456789abcdefXYZ -> 0 k | 30 31 32 33 34 35 36 37 38 39 61 62 63 64 65 66 */
#include "klog.h"

u64 transform(const u8 *value, u64 value_length, const u8 *key, u64 key_length, u64 nulls)
{
	static const char hex[] = "0123456789abcdef";
	char line[16 * 3];
	u64 n = value_length > 16 ? 16 : value_length;
	char *p = line;

	for (u64 i = 0; i < n; i++) {
		if (i > 0)
			*p++ = ' ';
		*p++ = hex[value[i] >> 4];
		*p++ = hex[value[i] & 15];
	}
	return emit_value(0, line, p - line);
}
