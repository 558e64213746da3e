/* A value is a bitmap of four bytes. Emits the numbers of its bits that are set as ranges.
 *
 * k | hex:0f020000 -> 0 k | 0-3,9
 * k | hex:01000080 -> 0 k | 0,31
 * k | hex:00000000 -> 0 k | hex:
 * k | hex:ffffffff -> 0 k | 0-31
 * k | abc -> reject 1
 */
#include "klog.h"

static char *put_number(char *to, u32 n)
{
	if (n >= 10)
		*to++ = '0' + n / 10;
	*to++ = '0' + n % 10;
	return to;
}

u64 transform(const u8 *value, u64 value_length, const u8 *key, u64 key_length, u64 nulls)
{
	char text[128];
	char *to = text;
	u32 bits;

	if (value_length != 4)
		return 1;
	memcpy(&bits, value, 4);
	for (u32 first = 0; first < 32; first++) {
		if (!(bits >> first & 1))
			continue;
		u32 last = first;
		while (last + 1 < 32 && (bits >> (last + 1) & 1))
			last++;
		if (to != text)
			*to++ = ',';
		to = put_number(to, first);
		if (last > first) {
			*to++ = '-';
			to = put_number(to, last);
		}
		first = last;
	}
	return emit_value(0, text, to - text);
}
