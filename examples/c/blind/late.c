/* Compares the time at which a device measured, 13 digits of milliseconds before a comma, with the record's timestamp. A clock that is
 * over a minute ahead sends the record to output 1; one that is over an hour late goes to output 2 with a header.
 *
 * k | 4000000000000,21.5 -> 1 k | 4000000000000,21.5
 * k | 9999999999999, -> 1 k | 9999999999999,
 * k | 4000000000000;21.5 -> reject 11
 * k | 21.5 -> reject 10
 * k | -> reject 10 */
#include "klog_parts.h"

u64 transform(const u8 *value, u64 value_length, const u8 *key, u64 key_length, u64 nulls)
{
	u64 measured = decimal(VALUE, 0, 13), arrived = record_timestamp();

	if (measured == 0)
		return 10;
	measured--;
	if (!equals(VALUE, 13, ",", 1))
		return 11;
	if (measured > arrived + 60 * 1000)
		return emit_record(1);
	if (arrived > measured + 60 * 60 * 1000) {
		add_header("late", 4, "yes", 3);
		return emit_record(2);
	}
	return emit_record(0);
}
