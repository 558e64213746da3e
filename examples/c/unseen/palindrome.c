/* Sends records whose key of up to 40 letters is a palindrome to output 1, and others to output 0. Spaces and the case do not count.
 *
 * Anna | v -> 1 Anna | v
 * never odd or even | v -> 1 never odd or even | v
 * Bob2 | v -> 0 Bob2 | v
 * | v -> 1 | v
 * ab | v -> 0 ab | v */
#include "klog.h"

static u8 lower(u8 c)
{
	return c >= 'A' && c <= 'Z' ? c + 32 : c;
}

u64 transform(const u8 *value, u64 value_length, const u8 *key, u64 key_length, u64 nulls)
{
	long i = 0, j = (long)key_length - 1;

	if (key_length > 40)
		return 1;
	while (i < j) {
		if (key[i] == ' ') {
			i++;
			continue;
		}
		if (key[j] == ' ') {
			j--;
			continue;
		}
		if (lower(key[i]) != lower(key[j]))
			return emit_record(0);
		i++;
		j--;
	}
	return emit_record(1);
}
