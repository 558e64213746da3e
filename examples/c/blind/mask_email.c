/* Writes stars over what stands before the @ of "email" in a JSON value, but for its first character. A value without such a text is
 * forwarded as it is, and one whose address is odd goes to output 1 to be looked at.
 *
 * k | {"email":"jane@x.org"} -> 0 k | {"email":"j***@x.org"}
 * k | {"id":7, "email": "jo.doe@example.com", "n":1} -> 0 k | {"id":7, "email": "j*****@example.com", "n":1}
 * k | {"email":"j@x.org"} -> 0 k | {"email":"j@x.org"}
 * k | {"email":"none"} -> 1 k | {"email":"none"}
 * k | {"email":"@x"} -> 1 k | {"email":"@x"}
 * k | {"id":8} -> 0 k | {"id":8} */
#include "klog_parts.h"

/* The longest part before the @ that RFC 5321 allows. */
#define LONGEST 64

u64 transform(const u8 *value, u64 value_length, const u8 *key, u64 key_length, u64 nulls)
{
	struct span email = json_text("email");
	char stars[LONGEST];

	if (!email.is_there)
		return emit_record(0);

	u64 sign = find(VALUE, email.at, "@", 1);

	/* The place of the sign in the text is the length of what stands before it. */
	if (sign == 0 || sign - 1 >= email.at + email.length)
		return emit_record(1);

	u64 length = sign - 1 - email.at;

	if (length == 0 || length > LONGEST)
		return emit_record(1);
	memset(stars, '*', sizeof stars);
	return emit_changed(0, email.at + 1, length - 1, stars, length - 1);
}
