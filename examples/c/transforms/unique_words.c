/* Emits each of a value's four words of 4 bytes once, in the order in which they first come.
 *
 * k | aaaabbbb -> reject 1
 * k | aaaabbbbaaaacccc -> 0 k | aaaabbbbcccc
 * k | aaaaaaaaaaaaaaaa -> 0 k | aaaa
 * k | aaaabbbbccccdddd -> 0 k | aaaabbbbccccdddd */
#include "klog.h"

u64 transform(const u8 *value, u64 value_length, const u8 *key, u64 key_length, u64 nulls)
{
	const u32 *word = (const u32 *)value;
	u32 unique[4] = {0};
	u64 count = 0;

	if (value_length != 16)
		return 1;
	for (u64 i = 0; i < 4; i++) {
		int seen = 0;

		for (u64 j = 0; j < i; j++)
			seen |= word[j] == word[i];
		if (!seen)
			unique[count++] = word[i];
	}
	return emit_value(0, unique, count * 4);
}
