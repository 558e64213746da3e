/* A key is a UUID in either case, with or without its four dashes. Emits the record with the 16 bytes as key.
 *
 * 123e4567-e89b-12d3-a456-426614174000 | v -> 0 hex:123e4567e89b12d3a456426614174000 | v
 * 123E4567E89B12D3A456426614174000 | v -> 0 hex:123e4567e89b12d3a456426614174000 | v
 * 123 | v -> reject 1
 * 123e4567-e89b-12d3-a456-42661417400x | v -> reject 2
 */
#include "klog.h"

static int nibble(u8 c)
{
	if (c >= '0' && c <= '9')
		return c - '0';
	c |= 0x20;
	if (c >= 'a' && c <= 'f')
		return c - 'a' + 10;
	return -1;
}

u64 transform(const u8 *value, u64 value_length, const u8 *key, u64 key_length, u64 nulls)
{
	u8 id[16];
	int digits = 0;

	if (key_length != 32 && key_length != 36)
		return 1;
	for (u64 i = 0; i < key_length; i++) {
		if (key[i] == '-' && key_length == 36)
			continue;
		int n = nibble(key[i]);
		if (n < 0 || digits == 32)
			return 2;
		if (digits % 2 == 0)
			id[digits / 2] = n << 4;
		else
			id[digits / 2] |= n;
		digits++;
	}
	if (digits != 32)
		return 2;
	return emit(0, id, sizeof(id), value, value_length);
}
