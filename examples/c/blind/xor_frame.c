/* Unpacks a sensor's frame: the byte 0x7e, the length of the payload (at most 64), the payload, and the xor of its bytes. The payload is
 * emitted.
 *
 * k | \x7e\x03abc\x60 -> 0 k | abc
 * k | \x7e\x01A\x41 -> 0 k | A
 * k | \x7e\x01AB -> reject 12
 * k | \x7e\x05A -> reject 11
 * k | hello -> reject 10 */
#include "klog.h"

u64 transform(const u8 *value, u64 value_length, const u8 *key, u64 key_length, u64 nulls)
{
	u64 length;
	u8 sum = 0;

	if (value_length < 3 || value[0] != 0x7e)
		return 10;
	length = value[1];
	if (length > 64 || value_length != length + 3)
		return 11;
	for (u64 i = 0; i < length; i++)
		sum ^= value[2 + i];
	if (sum != value[2 + length])
		return 12;
	return emit_value(0, value + 2, length);
}
