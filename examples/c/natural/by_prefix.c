/* Routes by the beginning of the key: "order-" to output 1, "user-" to 2, "log-" to 3, others to 0.
 *
 * order-1 | v -> 1 order-1 | v
 * user-x | v -> 2 user-x | v
 * log- | v -> 3 log- | v
 * lo | v -> 0 lo | v
 * null | v -> 0 null | v */
#include "klog.h"

static const struct {
	const char *text;
	u64 length, output;
} prefixes[] = {{"order-", 6, 1}, {"user-", 5, 2}, {"log-", 4, 3}};

u64 transform(const u8 *value, u64 value_length, const u8 *key, u64 key_length, u64 nulls)
{
	for (int i = 0; i < 3; i++)
		if (key_length >= prefixes[i].length && !memcmp(key, prefixes[i].text, prefixes[i].length))
			return emit_record(prefixes[i].output);
	return emit_record(0);
}
