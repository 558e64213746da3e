/* Makes the slug of an article's address from its title, and emits the title with the slug as its key: letters in lower case
 * and digits stay, apostrophes vanish, and what else stands between them becomes one hyphen.
 *
 * 17 | Hello, World! -> 0 hello-world | Hello, World!
 * 17 | What's New in 2024? -> 0 whats-new-in-2024 | What's New in 2024?
 * 17 | --A--B-- -> 0 a-b | --A--B--
 * 17 | !!! -> reject 21
 * 17 | a*81 -> reject 20 */
#include "klog.h"

static int is_alphanumeric(u8 c)
{
	return (c >= 'a' && c <= 'z') || (c >= '0' && c <= '9');
}

u64 transform(const u8 *value, u64 value_length, const u8 *key, u64 key_length, u64 nulls)
{
	u8 slug[80];
	u64 length = 0;
	int gap = 0;

	if (value_length > sizeof(slug))
		return 20;

	for (u64 i = 0; i < value_length; i++) {
		u8 c = value[i];

		if (c >= 'A' && c <= 'Z')
			c += 'a' - 'A';
		if (is_alphanumeric(c)) {
			if (gap && length > 0)
				slug[length++] = '-';
			gap = 0;
			slug[length++] = c;
		} else if (c != '\'') {
			gap = 1;
		}
	}
	if (length == 0)
		return 21;
	return emit(0, slug, length, value, value_length);
}
