/* Routes requests by their latency, the number "ms" of a JSON value: below 100 to output 0, below 500 to 1, below 2000 to 2,
 * and slower ones to 3.
 *
 * r1 | {"path":"/a","ms":99} -> 0 r1 | {"path":"/a","ms":99}
 * r1 | {"path":"/a","ms":340} -> 1 r1 | {"path":"/a","ms":340}
 * r1 | {"ms":1999,"path":"/a"} -> 2 r1 | {"ms":1999,"path":"/a"}
 * r1 | {"ms":2000} -> 3 r1 | {"ms":2000}
 * r1 | {"ms":null} -> reject 40
 * r1 | {"path":"/a"} -> reject 40 */
#include "klog_parts.h"

u64 transform(const u8 *value, u64 value_length, const u8 *key, u64 key_length, u64 nulls)
{
	static const u64 bounds[] = {100, 500, 2000};
	u64 at = find(VALUE, 0, "\"ms\":", 5);
	u64 ms = 0, digits, bucket = 0;

	if (at == 0)
		return 40;
	at += 4;
	for (digits = 0; digits < 8; digits++) {
		u64 number = decimal(VALUE, at, digits + 1);

		if (number == 0)
			break;
		ms = number - 1;
	}
	if (digits == 0)
		return 40;
	while (bucket < 3 && ms >= bounds[bucket])
		bucket++;
	return emit_record(bucket);
}
