/* A value is a list of tags, lengths and values of a card's payment, with tags of one byte or, where the low five bits of the
 * first are set, of two. Emits the amount, which tag 9F02 has in six bytes of two decimal digits each, without leading zeros.
 *
 * k | hex:5a0241119f0206000000012345 -> 0 k | 12345
 * k | hex:9f0206000000000000 -> 0 k | 0
 * k | hex:5a024111 -> reject 2
 * k | hex:9f02060000 -> reject 1
 */
#include "klog.h"

u64 transform(const u8 *value, u64 value_length, const u8 *key, u64 key_length, u64 nulls)
{
	u64 at = 0;

	if (value_length > 200)
		return 1;
	while (at < value_length) {
		u32 tag = value[at++];
		if ((tag & 0x1f) == 0x1f) {
			if (at >= value_length)
				return 1;
			tag = tag << 8 | value[at++];
		}
		if (at >= value_length)
			return 1;
		u64 length = value[at++];
		if (at + length > value_length)
			return 1;
		if (tag == 0x9f02 && length == 6) {
			char digits[12];
			for (int i = 0; i < 6; i++) {
				digits[2 * i] = '0' + (value[at + i] >> 4);
				digits[2 * i + 1] = '0' + (value[at + i] & 15);
			}
			int first = 0;
			while (first < 11 && digits[first] == '0')
				first++;
			return emit_value(0, digits + first, 12 - first);
		}
		at += length;
	}
	return 2;
}
