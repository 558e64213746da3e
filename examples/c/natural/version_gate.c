/* The header "version" is a version as 2.10.3. Sends records from 2.1.0 on to output 1, older ones and those without a version to
 * output 0, and rejects those whose version is none.
 *
 * k | v with version=2.10.3 -> 1 k | v
 * k | v with version=2.1.0 -> 1 k | v
 * k | v with version=2.0.99 -> 0 k | v
 * k | v with a=1, version=10.0.0 -> 1 k | v
 * k | v with version=2.x.0 -> reject 10
 * k | v with version=2.1 -> reject 10
 * k | v with version=null -> reject 10
 * k | v -> 0 k | v */
#include "klog.h"

#define LONGEST 15

static int compare(const u32 *a, const u32 *b)
{
	for (int i = 0; i < 3; i++) {
		if (a[i] < b[i])
			return -1;
		if (a[i] > b[i])
			return 1;
	}
	return 0;
}

u64 transform(const u8 *value, u64 value_length, const u8 *key, u64 key_length, u64 nulls)
{
	static const u32 wanted[3] = { 2, 1, 0 };

	for (u64 i = 0; i < header_count(); i++) {
		char name[7], text[LONGEST + 1];
		u32 version[3] = { 0, 0, 0 };
		int part = 0, digits = 0;

		if (header_key(name, i, sizeof name) != 8 || memcmp(name, "version", 7) != 0)
			continue;

		u64 length = header_value(text, i, LONGEST);

		if (length < 2 || length > LONGEST + 2)
			return 10;
		length -= 2;
		for (u64 k = 0; k < length; k++) {
			if (text[k] == '.') {
				if (!digits || ++part > 2)
					return 10;
				digits = 0;
			} else if (text[k] >= '0' && text[k] <= '9') {
				version[part] = version[part] * 10 + (text[k] - '0');
				digits++;
			} else {
				return 10;
			}
		}
		if (part != 2 || !digits)
			return 10;
		return emit_record(compare(version, wanted) >= 0);
	}
	return emit_record(0);
}
