/* A value is a request of HTTP. Routes it by its method: GET and HEAD to output 0, POST, PUT and PATCH to output 1, DELETE to output 2.
 * Other methods are rejected.
 *
 * k | GET / HTTP/1.1 -> 0 k | GET / HTTP/1.1
 * k | HEAD /a -> 0 k | HEAD /a
 * k | PATCH /a -> 1 k | PATCH /a
 * k | DELETE /a -> 2 k | DELETE /a
 * k | GETS / -> reject 10
 * k | GET -> reject 10
 * k | -> reject 10 */
#include "klog.h"

struct method {
	char name[8];
	u8 output;
};

static const struct method methods[] = {
	{"GET ", 0}, {"HEAD ", 0}, {"POST ", 1}, {"PUT ", 1}, {"PATCH ", 1}, {"DELETE ", 2},
};

u64 transform(const u8 *value, u64 value_length, const u8 *key, u64 key_length, u64 nulls)
{
	for (int i = 0; i < 6; i++) {
		u64 length = strlen(methods[i].name);

		if (value_length >= length && !memcmp(value, methods[i].name, length))
			return emit_record(methods[i].output);
	}
	return 10;
}
