/* Routes log lines by the word in brackets at their beginning: DEBUG to 0, INFO to 1, WARN to 2, ERROR to 3; others are rejected.
 *
 * k | [INFO] started -> 1 k | [INFO] started
 * k | [ERROR] -> 3 k | [ERROR]
 * k | [TRACE] x -> reject 1
 * k | INFO -> reject 1
 * k | [INFO -> reject 1 */
#include "klog.h"

static int starts_with(const u8 *value, u64 length, const char *word)
{
	u64 n = strlen(word);

	return length >= n && memcmp(value, word, n) == 0;
}

u64 transform(const u8 *value, u64 value_length, const u8 *key, u64 key_length, u64 nulls)
{
	if (starts_with(value, value_length, "[DEBUG]"))
		return emit_record(0);
	if (starts_with(value, value_length, "[INFO]"))
		return emit_record(1);
	if (starts_with(value, value_length, "[WARN]"))
		return emit_record(2);
	if (starts_with(value, value_length, "[ERROR]"))
		return emit_record(3);
	return 1;
}
