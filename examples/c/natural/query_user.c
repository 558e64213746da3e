/* A value is the path of a request of up to 100 bytes. Gives it the value of the parameter "user" as key.
 *
 * k | /a?x=1&user=ann&y=2 -> 0 ann | /a?x=1&user=ann&y=2
 * k | /a?user=bob -> 0 bob | /a?user=bob
 * k | /a?x=1 -> reject 1
 * k | /a?superuser=1 -> reject 1 */
#include "klog.h"

u64 transform(const u8 *value, u64 value_length, const u8 *key, u64 key_length, u64 nulls)
{
	const u8 *p = value, *end = value + value_length;

	if (value_length > 100)
		return 2;
	for (; p + 6 <= end; p++) {
		if ((*p == '?' || *p == '&') && memcmp(p + 1, "user=", 5) == 0) {
			const u8 *start = p + 6, *stop = start;

			while (stop < end && *stop != '&')
				stop++;
			return emit(0, start, stop - start, value, value_length);
		}
	}
	return 1;
}
