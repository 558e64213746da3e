/* Splits a batch of 1 to 16 messages, each of which has its length before it in two bytes, the high byte first. Alarms, which begin with
 * an exclamation mark, go to output 1, other messages to output 0. A batch that is empty, cut off or too long is rejected as a whole.
 *
 * k | \x00\x03abc -> 0 k | abc
 * k | \x00\x01a\x00\x02bc -> 0 k | a + 0 k | bc
 * k | \x00\x01a\x00\x03!hot\x00\x00 -> reject 11
 * k | \x00\x04!hot\x00\x00 -> 1 k | !hot + 0 k |
 * k | \x00\x05abc -> reject 11
 * k | \x00 -> reject 11
 * k | -> reject 10 */
#include "klog.h"

#define MOST 16

enum { TELEMETRY, ALARMS };

u64 transform(const u8 *value, u64 value_length, const u8 *key, u64 key_length, u64 nulls)
{
	const u8 *at = value, *end = value + value_length;

	if (value_length == 0)
		return 10;
	for (int i = 0; at < end; i++) {
		if (i == MOST)
			return 12;
		if (end - at < 2)
			return 11;

		u64 length = at[0] << 8 | at[1];

		at += 2;
		if (length > (u64)(end - at))
			return 11;

		u64 refused = emit_value(length > 0 && at[0] == '!' ? ALARMS : TELEMETRY, at, length);

		if (refused)
			return refused;
		at += length;
	}
	return 0;
}
