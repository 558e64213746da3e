/* Groups web requests by route: the value is a path, whose segments that are numbers or hexadecimal ids become ":id", and the
 * query is cut off. The template is the key of what is emitted, and the record's key (the method) its value.
 *
 * GET | /users/42/orders/7 -> 0 /users/:id/orders/:id | GET
 * GET | /v1/items?page=2 -> 0 /v1/items | GET
 * PUT | /files/9f86d081-884c/meta -> 0 /files/:id/meta | PUT
 * GET | /cafe/ -> 0 /cafe/ | GET
 * GET | / -> 0 / | GET
 * GET | users -> reject 10 */
#include "klog.h"

#define LONGEST 96

static int is_digit(u8 c)
{
	return c >= '0' && c <= '9';
}

static int may_be_in_id(u8 c)
{
	return is_digit(c) || (c >= 'a' && c <= 'f') || (c >= 'A' && c <= 'F') || c == '-';
}

u64 transform(const u8 *value, u64 value_length, const u8 *key, u64 key_length, u64 nulls)
{
	u8 out[2 * LONGEST + 8];
	u64 length = 0, segment, digits = 0, others = 0;

	if (value_length < 1 || value_length > LONGEST || value[0] != '/')
		return 10;

	out[length++] = '/';
	segment = length;
	for (u64 i = 1; i <= value_length; i++) {
		u8 c = i < value_length ? value[i] : '?';

		if (c != '/' && c != '?') {
			if (is_digit(c))
				digits++;
			else if (!may_be_in_id(c))
				others++;
			out[length++] = c;
			continue;
		}

		if (digits > 0 && others == 0) {
			memcpy(out + segment, ":id", 3);
			length = segment + 3;
		}
		if (c == '?')
			break;
		out[length++] = '/';
		segment = length;
		digits = 0;
		others = 0;
	}
	return emit(0, out, length, key, key_length);
}
