/* Sorts the change events of Maxwell's daemon: inserts, updates and bootstrapped rows to output 0, deletes to output 1. The
 * marks of a bootstrap's start and end are dropped, and unknown types rejected.
 *
 * 1 | {"table":"orders","type":"insert","data":{"id":1}} -> 0 1 | {"table":"orders","type":"insert","data":{"id":1}}
 * 1 | {"table":"orders","type":"delete","data":{"id":1}} -> 1 1 | {"table":"orders","type":"delete","data":{"id":1}}
 * 1 | {"table":"orders","type":"bootstrap-insert"} -> 0 1 | {"table":"orders","type":"bootstrap-insert"}
 * 1 | {"table":"orders","type":"bootstrap-start"} -> nothing
 * 1 | {"type":"table-alter"} -> reject 60
 * 1 | hello -> reject 60 */
#include "klog_parts.h"

u64 transform(const u8 *value, u64 value_length, const u8 *key, u64 key_length, u64 nulls)
{
	struct span type = json_text("type");

	if (is_text(VALUE, type, "insert") || is_text(VALUE, type, "update") || is_text(VALUE, type, "bootstrap-insert"))
		return emit_record(0);
	if (is_text(VALUE, type, "delete"))
		return emit_record(1);
	if (is_text(VALUE, type, "bootstrap-start") || is_text(VALUE, type, "bootstrap-complete"))
		return 0;
	return 60;
}
