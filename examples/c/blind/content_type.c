/* Routes JSON to output 1, XML to output 2 and all else to output 0, by the header content-type, or by the first byte of the value where
 * there is no such header.
 *
 * k | {"a":1} -> 1 k | {"a":1}
 * k | [1,2] -> 1 k | [1,2]
 * k | <a/> -> 2 k | <a/>
 * k | a=1 -> 0 k | a=1
 * k | -> reject 10 */
#include "klog_parts.h"

u64 transform(const u8 *value, u64 value_length, const u8 *key, u64 key_length, u64 nulls)
{
	if (value_length == 0)
		return 10;
	if (header("content-type", 12)) {
		if (header_is("content-type", "application/json"))
			return emit_record(1);
		if (header_is("content-type", "application/xml") || header_is("content-type", "text/xml"))
			return emit_record(2);
		return emit_record(0);
	}
	if (value[0] == '{' || value[0] == '[')
		return emit_record(1);
	return emit_record(value[0] == '<' ? 2 : 0);
}
