/* Writes stars over the first twelve of the sixteen digits after `"card":"`, among a value's first 4,096 bytes; a value
 * without them is forwarded.
 *
 * k | {"card":"4111111111111234","a":1} -> 0 k | {"card":"************1234","a":1}
 * k | {"id":7,"card":"4111111111111234"} -> 0 k | {"id":7,"card":"************1234"}
 * k | {"card":"411111111111123x"} -> 0 k | {"card":"411111111111123x"}
 * k | {"card":"411111 -> 0 k | {"card":"411111
 * k | {"id":7} -> 0 k | {"id":7}
 * k | -> 0 k |
 * k | null -> 0 k | null */
#include "klog_parts.h"

u64 transform(const u8 *value, u64 value_length, const u8 *key, u64 key_length, u64 nulls)
{
	static const char name[] = "\"card\":\"";
	u64 at = find(VALUE, 0, name, sizeof(name) - 1);

	if (at == 0)
		return emit_record(0);
	at += sizeof(name) - 2;
	if (!decimal(VALUE, at, 16))
		return emit_record(0);
	return emit_changed(0, at, 12, "************", 12);
}
