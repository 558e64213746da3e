/* Decodes a packet in COBS, with which devices send on a serial line packets that have no zero byte: each code byte says how many bytes
 * there are until the next zero, which is left out. The packet may end with the zero that closes it on the line.
 *
 * k | \x03\x11\x22\x02\x33\x00 -> 0 k | \x11\x22\x00\x33
 * k | \x06hello -> 0 k | hello
 * k | \x01\x01\x00 -> 0 k | \x00
 * k | \x02a\x01\x02b -> 0 k | a\x00\x00b
 * k | \x05ab -> reject 12
 * k | \x03a\x00b -> reject 11
 * k | \x00 -> reject 10 */
#include "klog.h"

#define MOST 128

u64 transform(const u8 *value, u64 value_length, const u8 *key, u64 key_length, u64 nulls)
{
	u8 packet[MOST];
	u64 end = value_length, length = 0, left = 0;

	if (end > 0 && value[end - 1] == 0)
		end--;
	if (end == 0 || end > MOST)
		return 10;
	for (u64 i = 0; i < end; i++) {
		u8 c = value[i];

		if (c == 0)
			return 11;
		if (left > 0) {
			packet[length++] = c;
			left--;
			continue;
		}

		/* A code byte: but for the first, the block before it had a zero at its end. One of 255 has none, but is longer than
		 * a packet may be. */
		if (i > 0)
			packet[length++] = 0;
		left = c - 1;
	}
	if (left > 0)
		return 12;
	return emit_value(0, packet, length);
}
