/* Emits "key=value" as the value, of a key of up to 16 bytes and a value of up to 48; longer ones are rejected.
 *
 * color | red -> 0 color | color=red
 * null | red -> 0 null | =red
 * color | null -> 0 color | color=
 * 0123456789abcdefg | red -> reject 1
 * color | 0123456789*5 -> reject 1 */
#include "klog.h"

u64 transform(const u8 *value, u64 value_length, const u8 *key, u64 key_length, u64 nulls)
{
	u8 line[65] = {0};

	if (key_length > 16 || value_length > 48)
		return 1;
	for (u64 i = 0; i < 16; i++)
		if (i < key_length)
			line[i] = key[i];
	line[key_length] = '=';
	for (u64 i = 0; i < 48; i++)
		if (i < value_length)
			line[key_length + 1 + i] = value[i];
	return emit_value(0, line, key_length + 1 + value_length);
}
