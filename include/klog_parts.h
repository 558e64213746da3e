/* What helper table 3 has: bytes of a record's parts, of any length, without a copy on the stack.
 *
 * Include it beside klog.h. A program that calls one of these is of table 3, and is loaded from the program file that klogc writes.
 *
 * A part of a record is named by a number: VALUE, KEY, and of each header, from 0, its key and its value. A part may be null, and the
 * record may lack a header: both have no bytes. A place is the number of a byte in a part, from 0. */
#ifndef KLOG_PARTS_H
#define KLOG_PARTS_H

#include "klog.h"

#define VALUE 0
#define KEY 1
#define HEADER_KEY(h) (2 + 2 * (u64)(h))
#define HEADER_VALUE(h) (3 + 2 * (u64)(h))

/* A part's length plus 2, or 1 where the part is null, and 0 where the record has no such header. */
HELPER(13, part_length, u64 part);

/* As load_value, of any part. */
HELPER(14, load_part, void *room, u64 at, u64 length, u64 part);

/* The place plus 1 at which these bytes first stand in a part, from a place on and at most 4,095 bytes after it; 0 where they don't. */
HELPER(15, find, u64 part, u64 at, const void *bytes, u64 length);

/* 1 where these bytes stand at a place of a part, else 0. */
HELPER(16, equals, u64 part, u64 at, const void *bytes, u64 length);

/* The number plus 1 that 1 to 18 digits write, which begin at a place of a part; 0 where it has not so many bytes there or one of them
 * is no digit. */
HELPER(17, decimal, u64 part, u64 at, u64 digits);

/* The hash by which Kafka's clients choose the partition of a key: murmur2, from 0 to 2^31 - 1; 0 of a null part. */
HELPER(18, hash, u64 part);

/* The position plus 1 of the first header with this key, 0 where the record has none. */
HELPER(19, header, const void *key, u64 length);

/* Emits the record's key and headers, and as the value the bytes of a part that begin at a place. The result is that of emit_record, or
 * 4 where the part lacks some of these bytes. */
HELPER(20, emit_part, u64 output, u64 part, u64 at, u64 length);

/* Emits the record's key and headers, and its value in which the bytes that begin at a place are replaced by others, of any count. The
 * result is that of emit_record, or 4 where the value lacks some of the bytes, and 5 where it gets too long. */
HELPER(21, emit_changed, u64 output, u64 at, u64 length, const void *bytes, u64 count);

/* Adds a header to what this run emits from now on, by whatever helper, after its other headers. The result is 0, or 1 where there are
 * sixteen with the record's own, 2 where the key has over 255 bytes or is no UTF-8, and 3 where the value has over 4,096 bytes. */
HELPER(22, add_header, const void *key, u64 key_length, const void *value, u64 value_length);

/* Where a piece of a part is, if it is there. */
struct span {
	u64 is_there, at, length;
};

/* Whether a part begins with a text in quotes, and whether the text stands at one of its first 4,096 places. */
#define starts_with(part, text) equals(part, 0, text, sizeof(text) - 1)
#define contains(part, text) (find(part, 0, text, sizeof(text) - 1) != 0)

/* Whether a piece of a part is a text in quotes. */
#define is_text(part, span, text) ((span).is_there && (span).length == sizeof(text) - 1 && equals(part, (span).at, text, sizeof(text) - 1))

/* Whether the first header of a name has a text as its value, both in quotes. */
#define header_is(name, text) klog_header_is(name, sizeof(name) - 1, text, sizeof(text) - 1)

/* The text that a JSON value has for a name: json_text("level") is where `error` stands in {"level": "error"}. It reads no JSON: it takes
 * the first place of the value's first 4,096 at which the name stands in quotes, at whatever depth and within texts too; a colon must
 * follow, with at most one space before and after it, and a text in quotes. That ends at the next quote, also where a \ stands before. */
#define json_text(name) klog_json_text("\"" name "\"", sizeof(name) + 1)

/* The field of a part at a position, from 0; between two fields stands a byte. One is not there where the part has fewer fields, is
 * null, or has no such byte in the 4,096 places that are looked at for each. */
static inline struct span field(u64 part, u8 separator, u64 position)
{
	struct span none = {0, 0, 0};
	u64 length = part_length(part), at = 0;

	if (length < 2)
		return none;
	length -= 2;
	for (; position > 0; position--) {
		at = find(part, at, &separator, 1);
		if (at == 0)
			return none;
	}

	u64 next = find(part, at, &separator, 1);

	if (next == 0 && length - at > 4096)
		return none;
	return (struct span){1, at, (next ? next - 1 : length) - at};
}

/* Emits the record as it is to an output, as emit_record: forward_to(hash(KEY) % n). */
static inline u64 forward_to(u64 output)
{
	return emit_record(output);
}

static inline u64 klog_header_is(const char *name, u64 name_length, const char *text, u64 length)
{
	u64 at = header(name, name_length);

	return at && part_length(HEADER_VALUE(at - 1)) == length + 2 && equals(HEADER_VALUE(at - 1), 0, text, length);
}

static inline struct span klog_json_text(const char *name, u64 length)
{
	struct span none = {0, 0, 0};
	u64 at = find(VALUE, 0, name, length);

	if (at == 0)
		return none;
	at += length - 1;
	at += equals(VALUE, at, " ", 1);
	if (!equals(VALUE, at, ":", 1))
		return none;
	at++;
	at += equals(VALUE, at, " ", 1);
	if (!equals(VALUE, at, "\"", 1))
		return none;
	at++;

	u64 end = find(VALUE, at, "\"", 1);

	return end ? (struct span){1, at, end - 1 - at} : none;
}

#endif
