/* Sends devices whose firmware is older than 2.4.0 to output 1, where they are updated, and the others to output 0. The value is the
 * version, with or without a v.
 *
 * k | 2.4.0 -> 0 k | 2.4.0
 * k | v2.10.1 -> 0 k | v2.10.1
 * k | 1.12.3 -> 1 k | 1.12.3
 * k | v2.3.99 -> 1 k | v2.3.99
 * k | 2.4 -> reject 11
 * k | 2.4.0-beta -> reject 11
 * k | -> reject 10 */
#include "klog.h"

struct version {
	u32 part[3];
};

static int parse(struct version *version, const u8 *text, u64 length)
{
	u64 at = text[0] == 'v';

	for (int i = 0; i < 3; i++) {
		u64 start = at;
		u32 n = 0;

		if (i > 0) {
			if (at >= length || text[at] != '.')
				return 0;
			start = ++at;
		}
		while (at < length && text[at] >= '0' && text[at] <= '9')
			n = n * 10 + (text[at++] - '0');
		if (at == start || at - start > 5)
			return 0;
		version->part[i] = n;
	}
	return at == length;
}

static int compare(const struct version *a, const struct version *b)
{
	for (int i = 0; i < 3; i++)
		if (a->part[i] != b->part[i])
			return a->part[i] < b->part[i] ? -1 : 1;
	return 0;
}

u64 transform(const u8 *value, u64 value_length, const u8 *key, u64 key_length, u64 nulls)
{
	static const struct version wanted = {{2, 4, 0}};
	struct version version;

	if (value_length == 0 || value_length > 18)
		return 10;
	if (!parse(&version, value, value_length))
		return 11;
	return emit_record(compare(&version, &wanted) < 0 ? 1 : 0);
}
