/* Routes alarms by the time at which they were raised: those of office hours (Monday to Friday, 08:00 to 18:00 UTC) to the
 * desk's output 0, and the others to the pager's output 1.
 *
 * pump7 | overheat at 0 -> 1 pump7 | overheat
 * pump7 | overheat at 28800000 -> 0 pump7 | overheat
 * pump7 | overheat at 64799999 -> 0 pump7 | overheat
 * pump7 | overheat at 64800000 -> 1 pump7 | overheat
 * pump7 | overheat at 208800000 -> 1 pump7 | overheat
 * pump7 | overheat at 374400000 -> 0 pump7 | overheat */
#include "klog.h"

#define HOUR 3600000
#define DAY (24 * HOUR)

u64 transform(const u8 *value, u64 value_length, const u8 *key, u64 key_length, u64 nulls)
{
	u64 now = record_timestamp();
	u64 weekday = (now / DAY + 3) % 7; /* 0 is Monday; the epoch began on a Thursday */
	u64 hour = now % DAY / HOUR;
	int office = weekday < 5 && hour >= 8 && hour < 18;

	return emit_record(office ? 0 : 1);
}
