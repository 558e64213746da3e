/* A value is JSON with a member "priority", a number from 0 to 3. Sends the record to that output; without one, to output 0.
 *
 * k | {"id":5,"priority":2} -> 2 k | {"id":5,"priority":2}
 * k | {"priority": 3, "x":1} -> 3 k | {"priority": 3, "x":1}
 * k | {"priority":7} -> reject 40
 * k | {"id":1} -> 0 k | {"id":1}
 * k | {} -> 0 k | {}
 */
#include "klog.h"

u64 transform(const u8 *value, u64 value_length, const u8 *key, u64 key_length, u64 nulls)
{
	static const char name[] = "\"priority\":";
	const u64 n = sizeof(name) - 1;

	for (u64 i = 0; i + n < value_length && i < 200; i++) {
		if (memcmp(value + i, name, n) != 0)
			continue;
		u64 at = i + n;
		while (at < value_length && value[at] == ' ')
			at++;
		if (at == value_length)
			return 41;
		u8 digit = value[at] - '0';
		if (digit > 3)
			return 40;
		return emit_record(digit);
	}
	return emit_record(0);
}
