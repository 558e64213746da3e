/* Gives a record the name of its timestamp's day of the week, in UTC, as key.
 *
 * k | v at 0 -> 0 Thursday | v
 * k | v at 1764460800000 -> 0 Sunday | v
 * k | v at 86400000 -> 0 Friday | v */
#include "klog.h"

static const char *const days[] = {"Sunday", "Monday", "Tuesday", "Wednesday", "Thursday", "Friday", "Saturday"};

u64 transform(const u8 *value, u64 value_length, const u8 *key, u64 key_length, u64 nulls)
{
	u64 day = record_timestamp() / 86400000;
	const char *name = days[(day + 4) % 7];

	return emit(0, name, strlen(name), value, value_length);
}
