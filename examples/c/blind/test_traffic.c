/* Drops what the load tests send: records with a header x-load-test that is "true" or "1", or with a key that begins with
 * "loadtest-". All else goes to output 0.
 *
 * user5 | click -> 0 user5 | click
 * user5 | click with x-load-test=true -> nothing
 * user5 | click with x-load-test=1 -> nothing
 * user5 | click with x-load-test=false -> 0 user5 | click
 * loadtest-17 | click -> nothing
 * null | click -> 0 null | click */
#include "klog_parts.h"

static int is_set(u64 position)
{
	u8 text[4];
	u64 length = header_value(text, position, sizeof(text));

	return (length == 4 + 2 && memcmp(text, "true", 4) == 0) || (length == 1 + 2 && text[0] == '1');
}

u64 transform(const u8 *value, u64 value_length, const u8 *key, u64 key_length, u64 nulls)
{
	u64 found = header("x-load-test", 11);

	if (found && is_set(found - 1))
		return 0;
	if (starts_with(KEY, "loadtest-"))
		return 0;
	return emit_record(0);
}
