/* Puts a plain line of a log as the text "message" in a JSON object, with the escapes that JSON demands. A line of over 250 bytes, or one
 * whose escapes need too much room, is rejected with 10.
 *
 * k | started -> 0 k | {"message":"started"}
 * k | say "hi" -> 0 k | {"message":"say \\"hi\\""}
 * k | a\x09b\x01 -> 0 k | {"message":"a\\tb\\u0001"}
 * k | C:\\temp -> 0 k | {"message":"C:\\\\temp"}
 * k | -> 0 k | {"message":""} */
#include "klog.h"

#define MOST 250

static char *put_text(char *out, const char *text)
{
	u64 length = strlen(text);

	memcpy(out, text, length);
	return out + length;
}

/* At most six bytes. */
static char *put_escaped(char *out, u8 c)
{
	static const char hex[] = "0123456789abcdef";

	switch (c) {
	case '"':
		return put_text(out, "\\\"");
	case '\\':
		return put_text(out, "\\\\");
	case '\n':
		return put_text(out, "\\n");
	case '\r':
		return put_text(out, "\\r");
	case '\t':
		return put_text(out, "\\t");
	}
	if (c < 0x20) {
		out = put_text(out, "\\u00");
		*out++ = hex[c >> 4];
		*out++ = hex[c & 15];
	} else {
		*out++ = c;
	}
	return out;
}

u64 transform(const u8 *value, u64 value_length, const u8 *key, u64 key_length, u64 nulls)
{
	char json[400], *out = json;
	char *const last = json + sizeof json - 6 - 2;

	if (value_length > MOST)
		return 10;
	out = put_text(out, "{\"message\":\"");
	for (u64 i = 0; i < value_length; i++) {
		if (out > last)
			return 10;
		out = put_escaped(out, value[i]);
	}
	out = put_text(out, "\"}");
	return emit_value(0, json, out - json);
}
