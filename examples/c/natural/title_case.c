/* Writes the first letter of each word of a value of up to 48 bytes as a capital.
 *
 * k | the quick fox -> 0 k | The Quick Fox
 * k | -> 0 k |
 * k | x*49 -> reject 1 */
#include "klog.h"
#include <stdbool.h>

u64 transform(const u8 *value, u64 value_length, const u8 *key, u64 key_length, u64 nulls)
{
	u8 text[48];
	bool first = true;

	if (value_length > sizeof text)
		return 1;
	memcpy(text, value, value_length);
	for (u64 i = 0; i < value_length; i++) {
		if (first && text[i] >= 'a' && text[i] <= 'z')
			text[i] -= 'a' - 'A';
		first = text[i] == ' ';
	}
	return emit_value(0, text, value_length);
}
