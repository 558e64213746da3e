/* Appends the Adler-32 sum of a value of at most 400 bytes to it, as a semicolon and eight hexadecimal digits, and keeps the headers.
 * Longer values are rejected with 10, and deletions forwarded.
 *
 * k | Wikipedia -> 0 k | Wikipedia;11e60398
 * k | a -> 0 k | a;00620062
 * k | abc -> 0 k | abc;024d0127
 * k | -> 0 k | ;00000001
 * k | null -> 0 k | null */
#include "klog_parts.h"

#define MOST 400
#define BASE 65521

static u32 adler32(const u8 *bytes, u64 length)
{
	u32 a = 1, b = 0;

	/* So few bytes can't make the sums overflow, and one remainder at the end is enough. */
	for (u64 i = 0; i < length; i++) {
		a += bytes[i];
		b += a;
	}
	return b % BASE << 16 | a % BASE;
}

u64 transform(const u8 *value, u64 value_length, const u8 *key, u64 key_length, u64 nulls)
{
	static const char hex[] = "0123456789abcdef";
	char suffix[9] = ";";

	if (nulls & VALUE_IS_NULL)
		return emit_record(0);
	if (value_length > MOST)
		return 10;

	u32 sum = adler32(value, value_length);

	for (int i = 8; i > 0; i--) {
		suffix[i] = hex[sum & 15];
		sum >>= 4;
	}
	return emit_changed(0, value_length, 0, suffix, sizeof suffix);
}
