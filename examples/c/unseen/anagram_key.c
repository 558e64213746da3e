/* Gives a record a key of the same letters, of up to 16, in alphabetical order and small, so that anagrams come together.
 *
 * Listen | v -> 0 eilnst | v
 * silent | v -> 0 eilnst | v
 * a | v -> 0 a | v
 * abcdefghijklmnopq | v -> reject 1
 */
#include "klog.h"

static void swap(u8 *a, u8 *b)
{
	u8 held = *a;
	*a = *b;
	*b = held;
}

u64 transform(const u8 *value, u64 value_length, const u8 *key, u64 key_length, u64 nulls)
{
	u8 letters[16];
	u64 n = key_length;

	if (n > sizeof letters)
		return 1;
	for (u64 i = 0; i < n; i++)
		letters[i] = key[i] >= 'A' && key[i] <= 'Z' ? key[i] + 32 : key[i];
	for (u64 i = 1; i < n; i++)
		for (u64 j = i; j > 0 && letters[j] < letters[j - 1]; j--)
			swap(&letters[j], &letters[j - 1]);
	return emit(0, letters, n, value, value_length);
}
