/* Sends the records whose header "region" is "eu" to output 1, others to output 0.
 *
 * k | v with region=eu -> 1 k | v
 * k | v with id=7, region=eu -> 1 k | v
 * k | v with region=us -> 0 k | v
 * k | v with region=eu-1 -> 0 k | v
 * k | v with region=null -> 0 k | v
 * k | v -> 0 k | v */
#include "klog.h"

u64 transform(const u8 *value, u64 value_length, const u8 *key, u64 key_length, u64 nulls)
{
	u8 region[8] = "region", name[8], text[4];

	for (u64 at = 0; at < 16; at++) {
		if (header_key(name, at, 8) != 7 || memcmp(name, region, 6))
			continue;
		if (header_value(text, at, 4) == 4 && text[0] == 'e' && text[1] == 'u')
			return emit_record(1);
	}
	return emit_record(0);
}
