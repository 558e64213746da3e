/* Masks the first social security number (ddd-dd-dddd) that stands in a support message; only its last four digits stay.
 *
 * t1 | my ssn is 123-45-6789, ok? -> 0 t1 | my ssn is ***-**-6789, ok?
 * t1 | a-b-c 078-05-1120 -> 0 t1 | a-b-c ***-**-1120
 * t1 | due 2024-01-15 -> 0 t1 | due 2024-01-15
 * t1 | 12-34-5678 -> 0 t1 | 12-34-5678
 * t1 | hello -> 0 t1 | hello */
#include "klog_parts.h"

#define DASHES 12

/* Whether the dash at a place is the first of a number's two. */
static int is_number(u64 dash)
{
	return dash >= 3 && decimal(VALUE, dash - 3, 3) && decimal(VALUE, dash + 1, 2) &&
	       equals(VALUE, dash + 3, "-", 1) && decimal(VALUE, dash + 4, 4);
}

u64 transform(const u8 *value, u64 value_length, const u8 *key, u64 key_length, u64 nulls)
{
	u64 at = 0;

	for (int i = 0; i < DASHES; i++) {
		u64 found = find(VALUE, at, "-", 1);

		if (found == 0)
			break;
		if (is_number(found - 1))
			return emit_changed(0, found - 4, 6, "***-**", 6);
		at = found;
	}
	return emit_record(0);
}
