/* Prepares Debezium change events for a compacted topic: creates, snapshot reads and updates go to output 0 as they are, truncates to
 * output 1, and a delete becomes a tombstone on output 0. The tombstone that Debezium sends after a delete is dropped.
 *
 * k | {"op":"c","after":{"id":1}} -> 0 k | {"op":"c","after":{"id":1}}
 * k | {"before":{"id":1},"op":"u"} -> 0 k | {"before":{"id":1},"op":"u"}
 * k | {"op": "d","before":{"id":1}} -> 0 k | null
 * k | {"op":"t"} -> 1 k | {"op":"t"}
 * k | {"op":"x"} -> reject 11
 * k | hello -> reject 10 */
#include "klog_parts.h"

u64 transform(const u8 *value, u64 value_length, const u8 *key, u64 key_length, u64 nulls)
{
	struct span op = json_text("op");
	u8 code = 0;

	if (nulls & VALUE_IS_NULL)
		return 0;
	if (!op.is_there || op.length != 1)
		return 10;
	load_value(&code, op.at, 1);
	switch (code) {
	case 'c': case 'r': case 'u': return emit_record(0);
	case 't': return emit_record(1);
	case 'd': return emit_null(0);
	}
	return 11;
}
