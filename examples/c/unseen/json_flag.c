/* Keeps the JSON values of up to 200 bytes that have "active": true, with or without spaces after the colon; others are dropped.
 *
 * k | {"id":1,"active":true} -> 0 k | {"id":1,"active":true}
 * k | {"active":  true} -> 0 k | {"active":  true}
 * k | {"active":false} -> nothing
 * k | {"id":1} -> nothing
 * k | {"active": -> nothing */
#include "klog.h"

u64 transform(const u8 *value, u64 value_length, const u8 *key, u64 key_length, u64 nulls)
{
	static const char name[] = "\"active\":";
	const u64 length = sizeof(name) - 1;

	if (value_length > 200)
		return 1;
	for (u64 i = 0; i + length <= value_length; i++) {
		if (memcmp(value + i, name, length))
			continue;
		u64 at = i + length;
		while (at < value_length && value[at] == ' ')
			at++;
		if (at + 4 <= value_length && memcmp(value + at, "true", 4) == 0)
			return emit_record(0);
		return 0;
	}
	return 0;
}
