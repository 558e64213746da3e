/* A value is up to 32 bytes of signed varints (zigzag), each of up to 5 bytes. Emits their sum, in 8 bytes, little-endian.
 *
 * k | hex:0203 -> 0 k | hex:ffffffffffffffff
 * k | hex:ac02 -> 0 k | hex:9600000000000000
 * k | -> 0 k | hex:0000000000000000
 * k | hex:80 -> reject 2
 * k | hex:808080808001 -> reject 3 */
#include "klog.h"

u64 transform(const u8 *value, u64 value_length, const u8 *key, u64 key_length, u64 nulls)
{
	long long sum = 0;
	u64 at = 0;

	if (value_length > 32)
		return 1;
	while (at < value_length) {
		u64 raw = 0;
		int shift = 0;
		u8 byte;

		do {
			if (at == value_length)
				return 2;
			if (shift > 28)
				return 3;
			byte = value[at++];
			raw |= (u64)(byte & 0x7f) << shift;
			shift += 7;
		} while (byte & 0x80);
		sum += (long long)(raw >> 1) ^ -(long long)(raw & 1);
	}
	return emit_value(0, &sum, sizeof(sum));
}
