/* Takes off the five bytes that a schema registry's serializer writes before a message (a zero, and the schema's number) and
 * routes the messages of the known schemas; one of another schema goes to output 2 as it is.
 *
 * k | hex:0000000011414243 -> 0 k | ABC
 * k | hex:00000000124142 -> 1 k | AB
 * k | hex:00000000154142 -> 1 k | AB
 * k | hex:00000003e94142 -> 2 k | hex:00000003e94142
 * k | {"a":1} -> reject 50
 * k | hex:00000000 -> reject 50 */
#include "klog.h"

u64 transform(const u8 *value, u64 value_length, const u8 *key, u64 key_length, u64 nulls)
{
	if (value_length < 5 || value[0] != 0)
		return 50;

	u32 schema = (u32)value[1] << 24 | value[2] << 16 | value[3] << 8 | value[4];

	switch (schema) {
	case 17:
		return emit_value(0, value + 5, value_length - 5);
	case 18:
	case 21:
		return emit_value(1, value + 5, value_length - 5);
	default:
		return emit_record(2);
	}
}
