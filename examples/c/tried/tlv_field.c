/* A value is up to 8 fields: a kind of 1 byte, a length of 1 byte, and as many bytes. Emits the first field of kind 7.
 *
 * k | \1\2ab\7\3cde\2\0 -> 0 k | cde
 * k | \7\1x -> 0 k | x
 * k | \1\2ab -> reject 1
 * k | \7\5abc -> reject 1 */
#include "klog.h"

u64 transform(const u8 *value, u64 value_length, const u8 *key, u64 key_length, u64 nulls)
{
	u64 at = 0;

	for (int i = 0; i < 8; i++) {
		u64 length;

		if (at + 2 > value_length)
			return 1;
		length = value[at + 1];
		if (at + 2 + length > value_length)
			return 1;
		if (value[at] == 7)
			return emit_value(0, value + at + 2, length);
		at += 2 + length;
	}
	return 1;
}
