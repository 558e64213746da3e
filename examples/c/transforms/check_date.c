/* Forwards values that begin with a date as 2026-11-26, and rejects others.
 *
 * k | 2026-11-26 -> 0 k | 2026-11-26
 * k | 2026-13-26 -> reject 1
 * k | 2026-11-00T -> reject 1
 * k | 2026-1-1 -> reject 1 */
#include "klog.h"

u64 transform(const u8 *value, u64 value_length, const u8 *key, u64 key_length, u64 nulls)
{
	u64 month, day;

	if (value_length < 10 || value[4] != '-' || value[7] != '-')
		return 1;
	for (int i = 0; i < 10; i++)
		if (i != 4 && i != 7 && (value[i] < '0' || value[i] > '9'))
			return 1;
	month = 10 * (value[5] - '0') + value[6] - '0';
	day = 10 * (value[8] - '0') + value[9] - '0';
	if (month < 1 || month > 12 || day < 1 || day > 31)
		return 1;
	return emit_record(0);
}
