/* A value is a URL. Gives it the first part of its path as key: of https://a.org/shop/cart?x=1 that is "shop". The host begins after
 * "://"; it and the part are of at most 63 bytes each. A URL without a path gets an empty key.
 *
 * k | https://a.org/shop/cart?x=1 -> 0 shop | https://a.org/shop/cart?x=1
 * k | http://b/img -> 0 img | http://b/img
 * k | http://b?x=/y -> 0 | http://b?x=/y
 * k | ftp://host/#top -> 0 | ftp://host/#top
 * k | /shop -> reject 10 */
#include "klog.h"

static u64 find(const u8 *text, u64 from, u64 end, const char *any)
{
	while (from < end) {
		for (const char *c = any; *c; c++)
			if (text[from] == (u8)*c)
				return from;
		from++;
	}
	return end;
}

u64 transform(const u8 *value, u64 value_length, const u8 *key, u64 key_length, u64 nulls)
{
	u64 host = 0;

	for (u64 i = 0; i < 10 && i + 3 <= value_length; i++) {
		if (memcmp(value + i, "://", 3) == 0) {
			host = i + 3;
			break;
		}
	}
	if (!host)
		return 10;

	u64 limit = value_length < host + 64 ? value_length : host + 64;
	u64 slash = find(value, host, limit, "/?#");

	if (slash == limit || value[slash] != '/')
		return emit(0, "", 0, value, value_length);

	u64 start = slash + 1;
	u64 last = value_length < start + 64 ? value_length : start + 64;
	u64 end = find(value, start, last, "/?#");

	return emit(0, value + start, end - start, value, value_length);
}
