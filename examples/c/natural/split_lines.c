/* A value of up to 120 bytes is lines with a newline after each. Emits each line as a record; the last may lack its newline. A value of
 * more than 16 lines is rejected.
 *
 * k | a\nbc\n -> 0 k | a + 0 k | bc
 * k | a\n\nb -> 0 k | a + 0 k | + 0 k | b
 * k | null -> nothing
 * k | \n*17 -> reject 3 */
#include "klog.h"

u64 transform(const u8 *value, u64 value_length, const u8 *key, u64 key_length, u64 nulls)
{
	u64 start = 0;

	if (value_length > 120)
		return 10;
	for (u64 i = 0; i < value_length; i++) {
		if (value[i] == '\n') {
			u64 refused = emit_value(0, value + start, i - start);

			if (refused)
				return refused;
			start = i + 1;
		}
	}
	if (start < value_length)
		return emit_value(0, value + start, value_length - start);
	return 0;
}
