/* Emits a line of a log of up to 120 bytes without the colours of a terminal: an escape, [, digits and semicolons, and m.
 *
 * k | \x1b[31mred\x1b[0m text -> 0 k | red text
 * k | plain -> 0 k | plain
 * k | a\x1b[1;32mb -> 0 k | ab
 * k | a\x1b -> 0 k | a\x1b
 * k | a\x1b[31 -> 0 k | a */
#include "klog.h"

u64 transform(const u8 *value, u64 value_length, const u8 *key, u64 key_length, u64 nulls)
{
	u8 out[120];
	u64 n = 0, i = 0;

	if (value_length > sizeof out)
		return 1;
	while (i < value_length) {
		if (value[i] == 0x1b && i + 1 < value_length && value[i + 1] == '[') {
			i += 2;
			while (i < value_length && value[i] != 'm')
				i++;
			i++;
		} else {
			out[n++] = value[i++];
		}
	}
	return emit_value(0, out, n);
}
