/* Emits a value of up to 80 bytes with each run of spaces, tabs and newlines as one space.
 *
 * k | a  b\t\n c -> 0 k | a b c
 * k | \x20\x20x -> 0 k | \x20x
 * k | plain -> 0 k | plain
 * k | x*81 -> reject 10 */
#include "klog.h"
#include <stdbool.h>

static bool is_space(char c)
{
	return c == ' ' || c == '\t' || c == '\n' || c == '\r';
}

u64 transform(const u8 *value, u64 value_length, const u8 *key, u64 key_length, u64 nulls)
{
	char out[80];
	unsigned n = 0;
	bool was_space = false;

	if (value_length > 80)
		return 10;
	for (unsigned i = 0; i < value_length; i++) {
		bool space = is_space(value[i]);

		if (space && was_space)
			continue;
		out[n++] = space ? ' ' : value[i];
		was_space = space;
	}
	return emit_value(0, out, n);
}
