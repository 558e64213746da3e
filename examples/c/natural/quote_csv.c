/* Emits a value of up to 50 bytes in quotes, with each quote in it twice.
 *
 * k | a"b -> 0 k | "a""b"
 * k | -> 0 k | ""
 * k | x*51 -> reject 1 */
#include "klog.h"

u64 transform(const u8 *value, u64 value_length, const u8 *key, u64 key_length, u64 nulls)
{
	char text[102];
	u64 n = 0;

	if (value_length > 50)
		return 1;
	text[n++] = '"';
	for (u64 i = 0; i < value_length; i++) {
		if (value[i] == '"')
			text[n++] = '"';
		text[n++] = value[i];
	}
	text[n++] = '"';
	return emit_value(0, text, n);
}
