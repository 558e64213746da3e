/* A value is up to eight messages, each after its length in 2 bytes, big-endian. Emits each as a record. A value that ends within a
 * message is rejected.
 *
 * k | hex:0003616263000164 -> 0 k | abc + 0 k | d
 * k | hex:0000 -> 0 k | hex:
 * k | hex:000461 -> reject 1
 * k | hex:00 -> reject 1
 * k | hex: -> nothing
 */
#include "klog.h"

u64 transform(const u8 *value, u64 value_length, const u8 *key, u64 key_length, u64 nulls)
{
	const u8 *p = value, *end = value + value_length;

	for (int n = 0; p < end; n++) {
		if (n == 8 || end - p < 2)
			return 1;
		u16 length = p[0] << 8 | p[1];
		p += 2;
		if (end - p < length)
			return 1;
		emit_value(0, p, length);
		p += length;
	}
	return 0;
}
