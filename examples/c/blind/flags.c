/* Writes out the status word of an alarm panel, two bytes with the low one first, as the names of the bits that are set, or "ok".
 *
 * k | \x00\x00 -> 0 k | ok
 * k | \x01\x00 -> 0 k | door
 * k | \x06\x00 -> 0 k | battery,tamper
 * k | \x3f\x00 -> 0 k | door,battery,tamper,heat,signal,clock
 * k | \x00\x80 -> reject 11
 * k | a -> reject 10 */
#include "klog.h"

static const char *const names[] = {"door", "battery", "tamper", "heat", "signal", "clock"};

#define NAMES (sizeof names / sizeof names[0])

u64 transform(const u8 *value, u64 value_length, const u8 *key, u64 key_length, u64 nulls)
{
	char text[64];
	u64 length = 0;
	u32 status;

	if (value_length != 2)
		return 10;
	status = value[0] | value[1] << 8;
	if (status >> NAMES)
		return 11;
	if (status == 0)
		return emit_value(0, "ok", 2);
	for (u32 bit = 0; bit < NAMES; bit++) {
		if (!(status & 1u << bit))
			continue;
		if (length > 0)
			text[length++] = ',';

		u64 n = strlen(names[bit]);

		memcpy(text + length, names[bit], n);
		length += n;
	}
	return emit_value(0, text, length);
}
