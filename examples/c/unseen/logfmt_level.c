/* A value is a line as `time=.. level=error msg=..`, of up to 200 bytes. Routes it by the level: error to output 2, warn to output 1, others
 * to output 0; a line without a level is rejected.
 *
 * k | time=1 level=error msg=x -> 2 k | time=1 level=error msg=x
 * k | level=warn -> 1 k | level=warn
 * k | a=b level=info -> 0 k | a=b level=info
 * k | sublevel=error level=info -> 0 k | sublevel=error level=info
 * k | msg=hello -> reject 1
 * k | -> reject 1 */
#include "klog.h"

static int begins(const u8 *text, u64 length, const char *with, u64 n)
{
	return length >= n && memcmp(text, with, n) == 0;
}

u64 transform(const u8 *value, u64 value_length, const u8 *key, u64 key_length, u64 nulls)
{
	if (value_length > 200)
		return 2;
	for (u64 i = 0; i < value_length; i++) {
		if (i > 0 && value[i - 1] != ' ')
			continue;
		if (!begins(value + i, value_length - i, "level=", 6))
			continue;
		const u8 *level = value + i + 6;
		u64 left = value_length - i - 6;

		if (begins(level, left, "error", 5))
			return emit_record(2);
		if (begins(level, left, "warn", 4))
			return emit_record(1);
		return emit_record(0);
	}
	return 1;
}
