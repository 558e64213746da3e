/* Keeps about a quarter of the sessions, always all records of one: those of which the FNV-1a hash of the text after session= has its
 * two lowest bits clear. The others are dropped, and a record without a session or with a longer one than 64 bytes is rejected with 10.
 *
 * k | session=a&page=1 -> 0 k | session=a&page=1
 * k | page=2&session=e -> 0 k | page=2&session=e
 * k | session=foobar -> 0 k | session=foobar
 * k | session=b&page=1 -> nothing
 * k | session=foo -> nothing
 * k | page=1 -> reject 10
 * k | session=&page=1 -> reject 10 */
#include "klog_parts.h"

#define LONGEST 64

static u32 fnv1a(const u8 *bytes, u64 length)
{
	u32 hash = 2166136261u;

	for (u64 i = 0; i < length; i++) {
		hash ^= bytes[i];
		hash *= 16777619u;
	}
	return hash;
}

u64 transform(const u8 *value, u64 value_length, const u8 *key, u64 key_length, u64 nulls)
{
	u64 found = find(VALUE, 0, "session=", 8);

	if (found == 0)
		return 10;

	u64 at = found - 1 + 8, end = find(VALUE, at, "&", 1);
	u64 length = (end ? end - 1 : value_length) - at;

	if (length == 0 || length > LONGEST)
		return 10;
	if ((fnv1a(value + at, length) & 3) != 0)
		return 0;
	return emit_record(0);
}
