/* Routes JSON values by their level: error to output 2, warn to 1, others to 0. Drops the records whose header "debug"
 * is "yes".
 *
 * k | {"level":"error","text":"disk full"} -> 2 k | {"level":"error","text":"disk full"}
 * k | {"time": 17, "level": "warn"} -> 1 k | {"time": 17, "level": "warn"}
 * k | {"level":"errors"} -> 0 k | {"level":"errors"}
 * k | {"level":5} -> 0 k | {"level":5}
 * k | {"level":"error -> 0 k | {"level":"error
 * k | {"text":"level"} -> 0 k | {"text":"level"}
 * k | -> 0 k |
 * k | null -> 0 k | null
 * k | {"level":"error"} with debug=yes -> nothing
 * k | {"level":"error"} with debug=yesterday -> 2 k | {"level":"error"} */
#include "klog_parts.h"

u64 transform(const u8 *value, u64 value_length, const u8 *key, u64 key_length, u64 nulls)
{
	struct span level = json_text("level");

	if (header_is("debug", "yes"))
		return 0;
	if (is_text(VALUE, level, "error"))
		return forward_to(2);
	if (is_text(VALUE, level, "warn"))
		return forward_to(1);
	return forward_to(0);
}
