/* Routes a record by its key, words with dots between them: to the first of four patterns that it follows, in which a * stands
 * for one word; else to output 4.
 *
 * orders.new.eu | v -> 0 orders.new.eu | v
 * orders.paid.us | v -> 1 orders.paid.us | v
 * users.7 | v -> 2 users.7 | v
 * audit | v -> 3 audit | v
 * orders.eu | v -> 4 orders.eu | v
 * audits | v -> 4 audits | v
 */
#include "klog.h"

static const char *const patterns[4] = {"orders.*.eu", "orders.*.us", "users.*", "audit"};

static int matches(const char *pattern, const u8 *key, u64 key_length)
{
	u64 at = 0;

	for (; *pattern; pattern++) {
		if (*pattern == '*') {
			u64 first = at;
			while (at < key_length && key[at] != '.')
				at++;
			if (at == first)
				return 0;
		} else {
			if (at == key_length || key[at] != (u8)*pattern)
				return 0;
			at++;
		}
	}
	return at == key_length;
}

u64 transform(const u8 *value, u64 value_length, const u8 *key, u64 key_length, u64 nulls)
{
	if (key_length > 32)
		return emit_record(4);
	for (int i = 0; i < 4; i++)
		if (matches(patterns[i], key, key_length))
			return emit_record(i);
	return emit_record(4);
}
