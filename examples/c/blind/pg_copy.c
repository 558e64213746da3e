/* Turns a row of Postgres' COPY in text format (columns between tabs, escapes with a backslash, \N for a null) into a JSON
 * array of texts and nulls.
 *
 * row | 1\tAda\t\\N -> 0 row | ["1","Ada",null]
 * row | 7\tsay "hi"\t -> 0 row | ["7","say \\"hi\\"",""]
 * row | a\\tb -> 0 row | ["a\\u0009b"]
 * row | C:\\\\temp\t\\N\tx -> 0 row | ["C:\\\\temp",null,"x"]
 * row | \\Nx -> reject 12
 * row | abc\\ -> reject 11
 * row | null -> reject 10 */
#include "klog.h"

struct text {
	u64 length;
	u8 bytes[400];
};

enum state { START, TEXT, NIL };

static void put(struct text *out, const char *bytes)
{
	while (*bytes)
		out->bytes[out->length++] = *bytes++;
}

static void put_quoted(struct text *out, u8 c)
{
	if (c < 0x20) {
		put(out, c < 0x10 ? "\\u000" : "\\u001");
		c = "0123456789abcdef"[c & 15];
	} else if (c == '"' || c == '\\') {
		put(out, "\\");
	}
	out->bytes[out->length++] = c;
}

static u8 unescape(u8 c)
{
	return c == 't' ? '\t' : c == 'n' ? '\n' : c == 'r' ? '\r' : c;
}

u64 transform(const u8 *value, u64 value_length, const u8 *key, u64 key_length, u64 nulls)
{
	static const char *const ends[] = {"\"\"", "\"", ""};
	struct text out;
	enum state state = START;
	int escape = 0;

	if ((nulls & VALUE_IS_NULL) || value_length > 64)
		return 10;
	out.length = 0;
	put(&out, "[");
	for (u64 i = 0; i < value_length; i++) {
		u8 c = value[i];

		if (!escape && c == '\\') {
			escape = 1;
		} else if (!escape && c == '\t') {
			put(&out, ends[state]);
			put(&out, ",");
			state = START;
		} else if (state == NIL) {
			return 12;
		} else if (escape && c == 'N' && state == START) {
			put(&out, "null");
			state = NIL;
			escape = 0;
		} else {
			if (state == START)
				put(&out, "\"");
			state = TEXT;
			put_quoted(&out, escape ? unescape(c) : c);
			escape = 0;
		}
	}
	if (escape)
		return 11;
	put(&out, ends[state]);
	put(&out, "]");
	return emit_value(0, out.bytes, out.length);
}
