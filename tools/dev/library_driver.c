/* Calls each function of the C library in random order, from several threads that share one program and read one handle
 * of each kind, with random, damaged and huge images, records, headers and record batches, short buffers, null pointers
 * and handles of every kind.
 *	library_driver SECONDS THREADS SEED IMAGE ..
 * Each IMAGE but the first may be a program file.
 * It fails where a fault is none of the function's, where a fault changes a handle or a buffer, where the first image,
 * which forwards each record to output 0, gives another record or batch than it was given, or where a beginning of that
 * image's program file is loaded, or refused with another fault than its length has. A sanitizer finds the rest:
 *	cc -std=c99 -D_POSIX_C_SOURCE=200809L -g -fsanitize=address,undefined -fno-sanitize-recover -pthread -IFOLDER \
 *		tools/dev/library_driver.c FOLDER/libklog.a -o library_driver
 * With -fsanitize=thread in its place the sanitizer sees the driver and include/klog_engine.c, if that is compiled with
 * it; the archive's own code it sees only where that calls malloc, realloc and free. */
#include "klog_engine.h"

#include <pthread.h>
#include <stdbool.h>
#include <stdio.h>
#include <stdlib.h>
#include <string.h>
#include <time.h>

enum { HANDLES = 10, IMAGES = 64, LONGEST = 200000, MOST_THREADS = 16 };

/* What `*place` is before a load; no refusal has this place. */
enum { MARK = 77777 };

struct image {
	uint8_t *bytes;
	size_t length;
};

/* A header as it was given; `value` is null for a null value. */
struct header {
	uint8_t *key, *value;
	size_t key_length, value_length;
};

struct worker {
	pthread_t thread;
	uint64_t state;
	unsigned long calls, runs, transforms, headers;
	klog_handle handles[HANDLES];
	klog_handle forward, given, outcome, batches;
	/* What `given` holds. */
	struct header kept[KLOG_HEADERS];
	size_t kept_count;
};

static struct image images[IMAGES];
static size_t image_count;
static time_t end;
/* What all threads read at the same time: a program, headers, and what the program makes of a record with these, of a
 * batch, and a text. */
static klog_handle shared, shared_headers, shared_outcome, shared_batches, shared_text;
/* What a thread finds there. */
static klog_output shared_told;
static uint8_t shared_value[] = "a value that all threads read";

static void fail(const char *what, uint32_t number)
{
	fprintf(stderr, "%s: %u\n", what, (unsigned)number);
	abort();
}

/* A number below `limit`, by xorshift. */
static uint64_t below(struct worker *w, uint64_t limit)
{
	w->state ^= w->state << 13;
	w->state ^= w->state >> 7;
	w->state ^= w->state << 17;
	return w->state % limit;
}

static bool one_in(struct worker *w, uint64_t n)
{
	return below(w, n) == 0;
}

/* A number near one of the limits, or any. */
static uint64_t number(struct worker *w)
{
	static const uint64_t ends[] = {0, 1, 2, 15, 16, 63, 64, 65, 4096, 1048576, 1ull << 62, 1ull << 63, ~0ull};
	uint64_t x = ends[below(w, sizeof ends / sizeof ends[0])] + below(w, 3) - 1;
	return one_in(w, 4) ? below(w, ~0ull) : x;
}

/* Some bytes in a block of exactly their length, so that a sanitizer sees each byte beyond. */
static uint8_t *block(struct worker *w, size_t length)
{
	uint8_t *bytes = malloc(length ? length : 1);
	if (!bytes)
		fail("malloc", 0);
	for (size_t k = 0; k < length; k++)
		bytes[k] = (uint8_t)(k * 7 + w->state);
	return bytes;
}

static size_t length_below(struct worker *w, size_t limit)
{
	return below(w, one_in(w, 8) ? limit : 64);
}

/* What a handle mostly holds, by its number. */
enum { PROGRAMS = 0, OUTCOMES = 2, TEXTS = 4, BATCHES = 6, HEADERS = 8 };

/* A handle that mostly holds what is asked for, any other, or none. */
static klog_handle *handle(struct worker *w, size_t first)
{
	if (one_in(w, 40))
		return NULL;
	return &w->handles[one_in(w, 8) ? below(w, HANDLES) : first + below(w, 2)];
}

/* A fault leaves a handle as it was. */
static void look(const char *call, uint32_t fault, const klog_handle *before, const klog_handle *after)
{
	if (fault != KLOG_OK && after && (before->at != after->at || before->full != after->full))
		fail(call, fault);
}

static bool is_table(uint32_t table)
{
	return table == KLOG_TABLE_OWN || table == KLOG_TABLE_ONE || table == KLOG_TABLE_TWO;
}

/* Mostly the number of a helper table, or of a file's own. */
static uint32_t table(struct worker *w)
{
	return one_in(w, 20) ? (uint32_t)number(w) : KLOG_TABLE_OWN + (uint32_t)below(w, 3);
}

static bool is_image_fault(uint32_t fault)
{
	return (fault >= 101 && fault <= 106) || (fault >= 201 && fault <= 213);
}

static bool is_file_fault(uint32_t fault)
{
	return fault >= 401 && fault <= 404;
}

/* Makes an image a program file of a table, with a line for its first slot where the image has one. The room of
 * FILE_ROOM bytes is after it. Returns its length. */
enum { FILE_ROOM = 32 };
static size_t as_file(uint8_t *bytes, size_t length, uint32_t of)
{
	static const uint8_t head[] = {'K', 'L', 'O', 'G', 1, 0, 0, 0};
	static const char line[] = "0 a.c:1\n";
	size_t told = length >= 8 ? sizeof line - 1 : 0;
	memmove(bytes + 16, bytes, length);
	memcpy(bytes, head, sizeof head);
	for (unsigned k = 0; k < 4; k++) {
		bytes[8 + k] = (uint8_t)(of >> 8 * k);
		bytes[12 + k] = (uint8_t)(length >> 8 * k);
	}
	memcpy(bytes + 16 + length, line, told);
	return 16 + length + told;
}

/* Whether some bytes begin as a program file. */
static bool is_file(const struct image *image)
{
	return image->length >= 4 && !memcmp(image->bytes, "KLOG", 4);
}

static void load(struct worker *w)
{
	const struct image *from = &images[below(w, image_count)];
	size_t length = one_in(w, 4) ? length_below(w, LONGEST) : from->length, place = MARK;
	uint8_t *bytes = block(w, length + FILE_ROOM);
	if (!one_in(w, 8))
		memcpy(bytes, from->bytes, length < from->length ? length : from->length);
	if (!is_file(from) && one_in(w, 3))
		length = as_file(bytes, length, (uint32_t)below(w, 4));
	for (uint64_t k = below(w, 3); k && length; k--)
		bytes[below(w, length)] ^= (uint8_t)(1u << below(w, 8));
	klog_handle *to = handle(w, PROGRAMS), before = to ? *to : (klog_handle)KLOG_NOTHING;
	uint32_t of = table(w);
	uint32_t fault = klog_load(one_in(w, 40) ? NULL : bytes, length, of, to, one_in(w, 40) ? NULL : &place);
	look("load", fault, &before, to);
	if (fault == KLOG_RANGE ? is_table(of)
				: fault > KLOG_KIND && fault != KLOG_NULL && !is_image_fault(fault) && !is_file_fault(fault))
		fail("load", fault);
	if (is_image_fault(fault) ? place > 16384 : place != MARK)
		fail("load's place", fault);
	free(bytes);
}

static void fault_text(struct worker *w)
{
	static const uint32_t faults[] = {0, 1, 2, 3, 4, 5, 6, 7, 8, 9, 101, 102, 106, 107, 201, 213, 214, 301, 308, 309, 310, 401, 404, 405, 501, 507, 508, 509, 510};
	size_t room = below(w, 80), length = 0;
	char *text = (char *)block(w, room);
	uint32_t of = one_in(w, 3) ? (uint32_t)number(w) : faults[below(w, sizeof faults / sizeof faults[0])];
	uint32_t fault = klog_fault_text(of, (size_t)number(w), one_in(w, 40) ? NULL : text, room,
					 one_in(w, 40) ? NULL : &length);
	if (fault == KLOG_OK ? length > room || length == 0 : fault != KLOG_ROOM && fault != KLOG_NULL)
		fail("fault_text", fault);
	if (fault == KLOG_ROOM && length <= room)
		fail("fault_text's length", fault);
	free(text);
}

/* Compiles rules, of which a byte may be changed, into a buffer that may be too short. What is written is loaded. */
static void compile(struct worker *w)
{
	static const char *const texts[] = {
		"output 0\n",
		"drop 7 when not (key is null or length(value) > 9) # a remark\noutput hash(key) % 4\n",
		"output 1 when header \"a\" = \"b\"\ntombstone 2 when value has \"error\" and u32be(value, 1) >= 0x10\n",
		"output 4 with value[4..12] = \"****\" when decimal(key, 0, 4) < 1000\noutput 3 value[5..]",
	};
	const char *from = texts[below(w, sizeof texts / sizeof texts[0])];
	size_t length = strlen(from), room = below(w, one_in(w, 3) ? 200 : 6000), written = MARK, place = MARK;
	uint8_t *text = block(w, length), *buffer = block(w, room);
	memcpy(text, from, length);
	if (one_in(w, 2))
		text[below(w, length)] = (uint8_t)below(w, 128);
	klog_spot spot = {MARK, MARK, MARK};
	klog_handle program = KLOG_NOTHING;
	uint32_t fault = klog_compile(one_in(w, 40) ? NULL : text, length, buffer, room, &written, one_in(w, 40) ? NULL : &spot);
	bool is_refused = fault > KLOG_RULES && fault <= KLOG_RULES + 7;
	if (fault && fault != KLOG_ROOM && fault != KLOG_NULL && !is_refused)
		fail("compile", fault);
	if (fault == KLOG_ROOM ? written <= room : fault ? written != MARK : written > room)
		fail("compile's length", fault);
	if (is_refused ? spot.line < 1 || spot.line > 3 || spot.column < 1 || spot.column > length + 1 || spot.rule
		       : spot.line != MARK || spot.column != MARK || spot.rule != MARK)
		fail("compile's spot", fault);
	if (!fault && klog_load(buffer, written, KLOG_TABLE_OWN, &program, &place))
		fail("load of compiled rules", fault);
	klog_free(&program);
	free(text);
	free(buffer);
}

static void share(struct worker *w)
{
	klog_handle *from = handle(w, PROGRAMS), *to = handle(w, PROGRAMS);
	klog_handle before = to ? *to : (klog_handle)KLOG_NOTHING;
	uint32_t fault = klog_share(one_in(w, 2) ? &shared : from, to);
	look("share", fault, &before, to);
	if (fault > KLOG_KIND && fault != KLOG_NULL)
		fail("share", fault);
}

/* Some bytes of text in a block of their length. */
static uint8_t *some_text(struct worker *w, size_t length)
{
	uint8_t *bytes = block(w, length);
	for (size_t k = 0; k < length; k++)
		bytes[k] &= 127;
	if (length > 1 && one_in(w, 4))
		memcpy(bytes + below(w, length - 1), "\xc3\xa4", 2);
	return bytes;
}

/* The first fault of a header that is one of the first 16 of its handle. */
static uint32_t header_fault(const struct header *h, bool is_text)
{
	if (h->key_length > 255 || h->value_length > 4096)
		return KLOG_LENGTH;
	return is_text ? KLOG_OK : KLOG_TEXT;
}

static struct header some_header(struct worker *w, bool is_fine)
{
	struct header h = {NULL, NULL, 0, 0};
	h.key_length = length_below(w, is_fine ? 256 : 300);
	h.value_length = one_in(w, 4) ? 0 : length_below(w, is_fine ? 4097 : 5000);
	h.key = some_text(w, h.key_length);
	h.value = one_in(w, 4) ? NULL : block(w, h.value_length);
	if (!h.value)
		h.value_length = 0;
	return h;
}

static void free_header(struct header *h)
{
	free(h->key);
	free(h->value);
}

static void add_header(struct worker *w)
{
	struct header h = some_header(w, !one_in(w, 4));
	bool is_text = true;
	if (h.key_length && one_in(w, 8)) {
		h.key[below(w, h.key_length)] = 255;
		is_text = false;
	}
	klog_handle *to = handle(w, HEADERS), before = to ? *to : (klog_handle)KLOG_NOTHING;
	bool is_null = one_in(w, 40), is_long = one_in(w, 60);
	uint32_t fault = klog_add_header(to, is_null ? NULL : h.key, h.key_length, h.value,
					 is_long ? ~(size_t)0 : h.value_length);
	look("add_header", fault, &before, to);
	if (!to || (is_null && h.key_length) || (is_long && !h.value)) {
		if (fault != KLOG_NULL)
			fail("add_header's null", fault);
	} else if (fault == KLOG_KIND ? !before.full : is_long ? fault != KLOG_LENGTH : false) {
		fail("add_header", fault);
	} else if (fault != KLOG_KIND && !is_long) {
		uint32_t first = header_fault(&h, is_text);
		if (first ? fault != first : fault != KLOG_OK && fault != KLOG_RANGE)
			fail("add_header's fault", fault);
		w->headers += fault == KLOG_OK;
	}
	free_header(&h);
}

/* A record whose parts are blocks of their own. */
static klog_record record(struct worker *w, bool is_fine)
{
	klog_record r = {0};
	r.key_length = length_below(w, is_fine ? 4097 : 9000);
	r.value_length = length_below(w, one_in(w, 20) ? (is_fine ? 1048577 : 1100000) : 65537);
	r.key = block(w, r.key_length);
	r.value = block(w, r.value_length);
	r.offset = is_fine ? below(w, 1ull << 62) : number(w);
	r.timestamp = is_fine ? below(w, 1ull << 62) : number(w);
	r.partition = is_fine ? below(w, 64) : (size_t)number(w);
	r.outputs = is_fine ? 1 + below(w, 64) : (size_t)number(w);
	return r;
}

static void run(struct worker *w)
{
	klog_record r = record(w, !one_in(w, 4)), given = r;
	if (one_in(w, 4)) {
		given.key = NULL;
		given.key_length = one_in(w, 4) ? r.key_length : 0;
	}
	if (one_in(w, 8)) {
		given.value = NULL;
		given.value_length = 0;
	}
	if (one_in(w, 60))
		given.value_length = given.value ? (size_t)-1 : given.value_length;
	klog_handle *program = handle(w, PROGRAMS), *outcome = handle(w, OUTCOMES);
	klog_handle before = outcome ? *outcome : (klog_handle)KLOG_NOTHING;
	given.headers = one_in(w, 3) ? NULL : handle(w, HEADERS);
	klog_handle headers = given.headers ? *given.headers : (klog_handle)KLOG_NOTHING;
	uint32_t fault = klog_run(program, one_in(w, 60) ? NULL : &given, outcome);
	look("run", fault, &before, outcome);
	if (given.headers != outcome)
		look("run's headers", KLOG_KIND, &headers, given.headers);
	if (fault > KLOG_LENGTH && fault != KLOG_NULL)
		fail("run", fault);
	w->runs += fault == KLOG_OK;
	free((void *)r.key);
	free((void *)r.value);
}

/* What is copied of an emission. */
enum part { KEY, VALUE, HEADER_KEY, HEADER_VALUE };

static uint32_t copied(const klog_handle *outcome, size_t at, size_t header, enum part part, uint8_t *buffer, size_t room)
{
	switch (part) {
	case KEY:
		return klog_emission_key(outcome, at, buffer, room);
	case VALUE:
		return klog_emission_value(outcome, at, buffer, room);
	case HEADER_KEY:
		return klog_emission_header_key(outcome, at, header, buffer, room);
	default:
		return klog_emission_header_value(outcome, at, header, buffer, room);
	}
}

static void copy(struct worker *w, const klog_handle *outcome, size_t at, size_t header, enum part part, size_t length)
{
	size_t room = one_in(w, 2) ? length : length_below(w, 70000);
	uint8_t *buffer = block(w, room), *before = block(w, room);
	memcpy(before, buffer, room);
	uint32_t fault = copied(outcome, at, header, part, buffer, room);
	if (fault != (room < length ? KLOG_ROOM : KLOG_OK))
		fail("copy", fault);
	size_t changed = fault ? 0 : length;
	if (room > changed && memcmp(buffer + changed, before + changed, room - changed))
		fail("copy's rest", fault);
	free(buffer);
	free(before);
}

static void emitted_header(struct worker *w, const klog_handle *outcome, size_t at, size_t count)
{
	klog_header told = {0};
	size_t header = one_in(w, 4) ? (size_t)number(w) : below(w, count + 1);
	uint32_t fault = klog_emission_header(outcome, at, header, &told);
	if (fault != (header < count ? KLOG_OK : KLOG_RANGE))
		fail("emission_header", fault);
	uint8_t byte;
	if (fault && (klog_emission_header_key(outcome, at, header, &byte, 1) != fault ||
		      klog_emission_header_value(outcome, at, header, &byte, 1) != fault))
		fail("emission_header's copies", fault);
	if (fault)
		return;
	if (told.key_length > 255 || told.value_length > 4096 || (told.nulls && told.nulls != KLOG_NULL_VALUE))
		fail("emission_header's answer", fault);
	copy(w, outcome, at, header, HEADER_KEY, told.key_length);
	copy(w, outcome, at, header, HEADER_VALUE, told.value_length);
}

static void emissions(struct worker *w)
{
	klog_handle *outcome = handle(w, OUTCOMES);
	uint64_t code = 0;
	size_t count = 0;
	uint32_t fault = klog_outcome(outcome, &code, &count);
	if (fault != KLOG_OK && fault != (outcome ? KLOG_KIND : KLOG_NULL))
		fail("outcome", fault);
	if (count > KLOG_EMISSIONS || (code && count))
		fail("outcome's count", (uint32_t)count);
	klog_emission told = {0};
	size_t at = one_in(w, 2) ? (size_t)number(w) : below(w, count + 1);
	uint32_t found = klog_emission_at(outcome, at, &told);
	if (found != (fault ? fault : at < count ? KLOG_OK : KLOG_RANGE))
		fail("emission_at", found);
	if (found)
		return;
	if (told.output >= 64 || told.key_length > 4096 || told.value_length > 1048576 || told.nulls > 3 ||
	    told.header_count > KLOG_HEADERS)
		fail("emission_at's answer", found);
	copy(w, outcome, at, 0, KEY, told.key_length);
	copy(w, outcome, at, 0, VALUE, told.value_length);
	emitted_header(w, outcome, at, told.header_count);
}

static void explain(struct worker *w)
{
	if (!one_in(w, 16))
		return;
	const struct image *from = &images[below(w, image_count)];
	size_t length = one_in(w, 4) ? length_below(w, LONGEST) : from->length, told = 0;
	uint8_t *bytes = block(w, length + FILE_ROOM);
	memcpy(bytes, from->bytes, length < from->length ? length : from->length);
	if (!is_file(from) && one_in(w, 3))
		length = as_file(bytes, length, (uint32_t)below(w, 4));
	if (length && one_in(w, 2))
		bytes[below(w, length)] ^= (uint8_t)(1u << below(w, 8));
	klog_handle *text = handle(w, TEXTS), before = text ? *text : (klog_handle)KLOG_NOTHING;
	uint32_t of = table(w);
	uint32_t fault = klog_explain(bytes, length, of, (int)below(w, 2), text);
	look("explain", fault, &before, text);
	if (fault == KLOG_RANGE ? is_table(of)
				: fault != KLOG_OK && fault != (text ? KLOG_KIND : KLOG_NULL) && !is_file_fault(fault))
		fail("explain", fault);
	size_t room = below(w, 8000);
	char *buffer = (char *)block(w, room);
	uint32_t copied = klog_text(text, buffer, room, &told);
	if (!fault && copied != (told > room ? KLOG_ROOM : KLOG_OK))
		fail("text", copied);
	free(buffer);
	free(bytes);
}

/* ---- record batches, as the library writes them: no producer, offsets from 0 */

static uint32_t crc_table[256];

/* The table of CRC-32C, bit by bit. */
static void make_crc_table(void)
{
	for (uint32_t k = 0; k < 256; k++) {
		uint32_t x = k;
		for (int bit = 0; bit < 8; bit++)
			x = x & 1 ? x >> 1 ^ 0x82f63b78u : x >> 1;
		crc_table[k] = x;
	}
}

static uint32_t crc(const uint8_t *bytes, size_t length)
{
	uint32_t x = 0xffffffffu;
	for (size_t k = 0; k < length; k++)
		x = crc_table[(x ^ bytes[k]) & 255] ^ x >> 8;
	return ~x;
}

static uint8_t *put_number(uint8_t *at, uint64_t number, int bytes)
{
	for (int k = bytes - 1; k >= 0; k--)
		*at++ = (uint8_t)(number >> 8 * k);
	return at;
}

/* A zigzag number of 7 bits a byte, the low ones first. */
static uint8_t *put_varint(uint8_t *at, int64_t number)
{
	uint64_t x = (uint64_t)number << 1 ^ (uint64_t)(number >> 63);
	for (; x >= 128; x >>= 7)
		*at++ = (uint8_t)(x | 128);
	*at++ = (uint8_t)x;
	return at;
}

static size_t varint_size(int64_t number)
{
	uint8_t bytes[10];
	return (size_t)(put_varint(bytes, number) - bytes);
}

/* The bytes of a part, or null; only bits of the mask are set. */
static uint8_t *put_part(struct worker *w, uint8_t *at, int64_t length, uint8_t mask)
{
	at = put_varint(at, length);
	for (int64_t k = 0; k < length; k++)
		*at++ = (uint8_t)(w->state >> k % 57) & mask;
	return at;
}

static uint8_t *put_record(struct worker *w, uint8_t *at, int64_t number, size_t longest)
{
	int64_t key = (int64_t)below(w, 24) - 1, value = (int64_t)below(w, longest) - 1;
	int64_t header_key = (int64_t)below(w, 8), header_value = (int64_t)below(w, 8) - 1, headers = one_in(w, 4);
	size_t size = 1 + 1 + varint_size(number) + varint_size(key) + (size_t)(key > 0 ? key : 0) + varint_size(value) +
		      (size_t)(value > 0 ? value : 0) + 1;
	if (headers)
		size += 1 + (size_t)header_key + 1 + (size_t)(header_value > 0 ? header_value : 0);
	at = put_varint(at, (int64_t)size);
	*at++ = 0;
	at = put_varint(at, 0);
	at = put_varint(at, number);
	at = put_part(w, at, key, 255);
	at = put_part(w, at, value, 255);
	at = put_varint(at, headers);
	if (headers) {
		/* A header's key is UTF-8. */
		at = put_part(w, at, header_key, 127);
		at = put_part(w, at, header_value, 255);
	}
	return at;
}

/* Writes a batch, and returns its end. Its room is 61 and 70 bytes a record beside their values. */
static uint8_t *put_batch(struct worker *w, uint8_t *at, uint64_t offset, size_t count, size_t longest)
{
	uint64_t time = below(w, 1ull << 62);
	uint8_t *begin = at, *end = begin + 61;
	for (size_t k = 0; k < count; k++)
		end = put_record(w, end, (int64_t)k, longest);
	at = put_number(at, offset, 8);
	at = put_number(at, (uint64_t)(end - begin - 12), 4);
	at = put_number(at, 0, 4);
	*at++ = 2;
	uint8_t *sum = at;
	at = put_number(at + 4, 0, 2);
	at = put_number(at, count - 1, 4);
	at = put_number(at, time, 8);
	at = put_number(at, time, 8);
	at = put_number(at, ~0ull, 8);
	at = put_number(at, ~0ull, 2);
	at = put_number(at, ~0ull, 4);
	put_number(at, count, 4);
	put_number(sum, crc(sum + 4, (size_t)(end - sum - 4)), 4);
	return end;
}

/* Some batches in a block of exactly their length, some of them damaged. */
static uint8_t *some_batches(struct worker *w, size_t *length, size_t *batches, bool is_fine)
{
	size_t count = is_fine ? 1 + below(w, 3) : below(w, 4), longest = one_in(w, 6) ? 9000 : 80;
	size_t records = one_in(w, 10) ? 300 : 20;
	uint8_t *room = block(w, count * (61 + records * (longest + 70))), *end = room;
	for (size_t k = 0; k < count; k++)
		end = put_batch(w, end, below(w, 1000), 1 + below(w, records), longest);
	*length = (size_t)(end - room);
	*batches = count;
	if (!is_fine) {
		for (uint64_t k = below(w, 3); k && *length; k--)
			room[below(w, one_in(w, 2) && *length > 70 ? 70 : *length)] ^= (uint8_t)(1u << below(w, 8));
		if (one_in(w, 3) && *length)
			*length = below(w, *length);
	}
	uint8_t *bytes = block(w, *length);
	memcpy(bytes, room, *length);
	free(room);
	return bytes;
}

static bool is_batch_fault(uint32_t fault)
{
	return (fault >= 301 && fault <= 309) || fault == KLOG_FULL;
}

static void transform(struct worker *w)
{
	size_t length, count;
	uint8_t *bytes = some_batches(w, &length, &count, one_in(w, 2));
	klog_source source = {below(w, 1ull << 62), below(w, 64), 1 + below(w, 64)};
	if (one_in(w, 6))
		source = (klog_source){number(w), (size_t)number(w), (size_t)number(w)};
	klog_stop stop = {7, 7, 7};
	klog_handle *program = handle(w, PROGRAMS), *to = handle(w, BATCHES);
	klog_handle before = to ? *to : (klog_handle)KLOG_NOTHING;
	uint32_t fault = klog_transform(program, one_in(w, 60) ? NULL : &source, one_in(w, 60) ? NULL : bytes,
					one_in(w, 60) ? ~(size_t)0 >> 1 << 1 : length, to, one_in(w, 60) ? NULL : &stop);
	look("transform", fault, &before, to);
	if (fault > KLOG_RANGE && fault != KLOG_NULL && !is_batch_fault(fault))
		fail("transform", fault);
	if (is_batch_fault(fault) && (stop.byte > length || stop.batch > count))
		fail("transform's stop", fault);
	w->transforms += fault == KLOG_OK;
	free(bytes);
}

/* How many batches some bytes are. */
static size_t batch_count(const uint8_t *bytes, size_t length)
{
	size_t count = 0, at = 0;
	for (; at + 12 <= length; count++) {
		const uint8_t *rest = bytes + at + 8;
		at += 12 + ((size_t)rest[0] << 24 | (size_t)rest[1] << 16 | (size_t)rest[2] << 8 | rest[3]);
	}
	if (at != length)
		fail("batches", (uint32_t)at);
	return count;
}

static void outputs(struct worker *w)
{
	klog_handle *batches = handle(w, BATCHES);
	klog_counts counts = {0};
	klog_reject reject;
	klog_output told = {0};
	uint32_t fault = klog_counts_of(batches, &counts);
	if (fault != KLOG_OK && fault != (batches ? KLOG_KIND : KLOG_NULL))
		fail("counts_of", fault);
	if (counts.kept > counts.records || counts.codes > counts.records - counts.kept || counts.outputs > 64)
		fail("counts_of's answer", fault);
	size_t code = one_in(w, 2) ? (size_t)number(w) : below(w, counts.codes + 1);
	uint32_t found = klog_reject_at(batches, code, &reject);
	if (found != (fault ? fault : code < counts.codes ? KLOG_OK : KLOG_RANGE))
		fail("reject_at", found);
	size_t at = one_in(w, 4) ? (size_t)number(w) : below(w, counts.outputs + 1);
	found = klog_output_at(batches, at, &told);
	if (found != (fault ? fault : at < counts.outputs ? KLOG_OK : KLOG_RANGE))
		fail("output_at", found);
	if (found)
		return;
	size_t room = one_in(w, 2) ? told.length : below(w, 2 * told.length + 2);
	uint8_t *buffer = block(w, room);
	found = klog_output_batches(batches, at, one_in(w, 40) ? NULL : buffer, room);
	if (found != KLOG_NULL && found != (room < told.length ? KLOG_ROOM : KLOG_OK))
		fail("output_batches", found);
	if (!found && batch_count(buffer, told.length) != told.batches)
		fail("output_batches' count", (uint32_t)told.batches);
	free(buffer);
}

/* The shared program forwards the one batch that it is given, byte by byte. */
static void forward_batch(struct worker *w)
{
	uint8_t *room = block(w, 61 + 50 * 150), *end = put_batch(w, room, 0, 1 + below(w, 50), 80);
	size_t length = (size_t)(end - room);
	klog_source source = {below(w, 1ull << 61), below(w, 64), 1 + below(w, 64)};
	klog_stop stop;
	klog_counts counts;
	klog_output told;
	uint32_t fault = klog_transform(&w->forward, &source, room, length, &w->batches, &stop);
	if (!fault)
		fault = klog_counts_of(&w->batches, &counts);
	if (!fault)
		fault = klog_output_at(&w->batches, 0, &told);
	if (fault || counts.batches != 1 || counts.records != counts.kept || counts.codes || counts.records != told.rows ||
	    told.length != length || told.batches != 1)
		fail("forward_batch", fault);
	uint8_t *copied = block(w, length);
	fault = klog_output_batches(&w->batches, 0, copied, length);
	if (fault || memcmp(copied, room, length))
		fail("forward_batch's bytes", fault);
	free(copied);
	free(room);
}

static void forget_headers(struct worker *w)
{
	klog_free(&w->given);
	while (w->kept_count)
		free_header(&w->kept[--w->kept_count]);
}

/* Changes what `given` holds, or leaves it for one more record. */
static void keep_headers(struct worker *w)
{
	if (one_in(w, 12))
		forget_headers(w);
	for (uint64_t k = below(w, 4); k; k--) {
		struct header h = some_header(w, true);
		uint32_t fault = klog_add_header(&w->given, h.key, h.key_length, h.value, h.value_length);
		if (fault != (w->kept_count < KLOG_HEADERS ? KLOG_OK : KLOG_RANGE))
			fail("keep_headers", fault);
		if (fault)
			free_header(&h);
		else
			w->kept[w->kept_count++] = h;
	}
}

static void compare_header(struct worker *w, size_t at)
{
	const struct header *h = &w->kept[at];
	klog_header told;
	uint32_t fault = klog_emission_header(&w->outcome, 0, at, &told);
	if (fault || told.key_length != h->key_length || told.value_length != h->value_length ||
	    told.nulls != (h->value ? 0 : KLOG_NULL_VALUE))
		fail("forward's header", fault);
	uint8_t *key = block(w, h->key_length), *value = block(w, h->value_length);
	fault = klog_emission_header_key(&w->outcome, 0, at, key, h->key_length);
	if (!fault)
		fault = klog_emission_header_value(&w->outcome, 0, at, value, h->value_length);
	if (fault || memcmp(key, h->key, h->key_length) || (h->value && memcmp(value, h->value, h->value_length)))
		fail("forward's header's bytes", fault);
	free(key);
	free(value);
}

/* The shared program forwards the record that it is given. */
static void forward(struct worker *w)
{
	klog_record r = record(w, true);
	keep_headers(w);
	r.headers = &w->given;
	uint64_t code;
	size_t count;
	klog_emission told;
	uint32_t fault = klog_run(&w->forward, &r, &w->outcome);
	if (!fault)
		fault = klog_outcome(&w->outcome, &code, &count);
	if (fault || code || count != 1)
		fail("forward", fault);
	fault = klog_emission_at(&w->outcome, 0, &told);
	if (fault || told.output || told.nulls || told.key_length != r.key_length ||
	    told.value_length != r.value_length || told.header_count != w->kept_count)
		fail("forward's emission", fault);
	for (size_t k = 0; k < w->kept_count; k++)
		compare_header(w, k);
	uint8_t *value = block(w, told.value_length);
	fault = klog_emission_value(&w->outcome, 0, value, told.value_length);
	if (fault || memcmp(value, r.value, told.value_length))
		fail("forward's value", fault);
	free(value);
	free((void *)r.key);
	free((void *)r.value);
}

/* The record that all threads run. */
static klog_record shared_record(void)
{
	klog_record r = {0};
	r.value = shared_value;
	r.value_length = sizeof shared_value;
	r.outputs = 1;
	r.headers = &shared_headers;
	return r;
}

/* Reads the handles that all threads share, each by each call that reads such a one. */
static void read_shared(struct worker *w)
{
	klog_record r = shared_record();
	uint64_t code;
	size_t count, length;
	klog_emission emission;
	klog_header header;
	klog_counts counts;
	klog_reject reject;
	klog_output told;
	uint8_t value[sizeof shared_value], byte;
	uint32_t fault = klog_run(&shared, &r, &w->outcome);
	if (!fault)
		fault = klog_outcome(&shared_outcome, &code, &count);
	if (!fault)
		fault = klog_emission_at(&shared_outcome, 0, &emission);
	if (!fault)
		fault = klog_emission_value(&shared_outcome, 0, value, sizeof value);
	if (!fault)
		fault = klog_emission_header(&shared_outcome, 0, 0, &header);
	if (!fault)
		fault = klog_emission_header_key(&shared_outcome, 0, 0, &byte, 1);
	if (!fault)
		fault = klog_emission_header_value(&shared_outcome, 0, 0, &byte, 1);
	if (fault || code || count != 1 || emission.key_length || emission.value_length != sizeof value ||
	    header.key_length != 1 || header.value_length != 1 || byte != 'v' ||
	    memcmp(value, shared_value, sizeof value) || klog_emission_key(&shared_outcome, 0, &byte, 1))
		fail("read_shared's outcome", fault);
	fault = klog_counts_of(&shared_batches, &counts);
	if (!fault)
		fault = klog_output_at(&shared_batches, 0, &told);
	if (fault || memcmp(&told, &shared_told, sizeof told) || counts.records != told.rows ||
	    klog_reject_at(&shared_batches, 0, &reject) != KLOG_RANGE)
		fail("read_shared's batches", fault);
	uint8_t *bytes = block(w, told.length);
	fault = klog_output_batches(&shared_batches, 0, bytes, told.length);
	if (fault || batch_count(bytes, told.length) != told.batches)
		fail("read_shared's bytes", fault);
	free(bytes);
	fault = klog_text(&shared_text, NULL, 0, &length);
	if (fault != KLOG_ROOM || !length)
		fail("read_shared's text", fault);
}

/* Rows take as many bytes as the limit, or one more. */
static void transform_within(struct worker *w)
{
	uint8_t *room = block(w, 61 + 50 * 150), *end = put_batch(w, room, 0, 1 + below(w, 50), 80);
	size_t length = (size_t)(end - room);
	klog_source source = {below(w, 1ull << 61), below(w, 64), 1 + below(w, 64)};
	klog_stop stop;
	klog_handle before = w->batches;
	uint32_t fault = klog_transform_within(&shared, &source, room, length, length - 1, &w->batches, &stop);
	look("transform_within", fault, &before, &w->batches);
	if (fault != KLOG_LIMIT || stop.batch != 1 || stop.byte != length)
		fail("transform_within's limit", fault);
	fault = klog_transform_within(&shared, &source, room, length, length, &w->batches, &stop);
	if (fault)
		fail("transform_within", fault);
	free(room);
}

/* Loads the first bytes of a file, by a table, and compares the fault. */
static void load_file(const uint8_t *file, size_t length, uint32_t by, uint32_t want)
{
	uint8_t *bytes = malloc(length ? length : 1);
	klog_handle program = KLOG_NOTHING;
	size_t place = MARK;
	if (!bytes)
		fail("malloc", 0);
	memcpy(bytes, file, length);
	uint32_t fault = klog_load(bytes, length, by, &program, &place);
	if (fault != want || place != (want == 101 ? 0 : MARK))
		fail("load of a program file", fault);
	klog_free(&program);
	free(bytes);
}

/* Loads the file of the first image by each table, and each beginning of it. */
static void load_files(struct worker *w)
{
	const struct image *from = &images[0];
	uint8_t *file = block(w, from->length + FILE_ROOM);
	memcpy(file, from->bytes, from->length);
	size_t length = as_file(file, from->length, KLOG_TABLE_ONE);
	load_file(file, length, KLOG_TABLE_OWN, KLOG_OK);
	load_file(file, length, KLOG_TABLE_ONE, KLOG_OK);
	load_file(file, length, KLOG_TABLE_TWO, KLOG_FILE + 3);
	load_file(file, length, 3, KLOG_RANGE);
	for (size_t k = 0; k < length; k++)
		load_file(file, k, KLOG_TABLE_OWN,
			  k < 4 ? 101 : k < 16 + from->length ? KLOG_FILE + 1 : k == 16 + from->length ? KLOG_OK : KLOG_FILE + 4);
	load_file(from->bytes, from->length, KLOG_TABLE_OWN, KLOG_OK);
	memcpy(file, from->bytes, from->length);
	length = as_file(file, from->length, 3);
	load_file(file, length, KLOG_TABLE_OWN, KLOG_OK);
	load_file(file, length, KLOG_TABLE_TWO, KLOG_FILE + 3);
	free(file);
}

/* Fills what all threads read. */
static void make_shared(struct worker *w)
{
	uint8_t *room = block(w, 61 + 50 * 150), *end = put_batch(w, room, 0, 50, 80);
	size_t place;
	klog_source source = {0, 0, 1};
	klog_stop stop;
	if (klog_load(images[0].bytes, images[0].length, KLOG_TABLE_ONE, &shared, &place) ||
	    klog_add_header(&shared_headers, (const uint8_t *)"k", 1, (const uint8_t *)"v", 1))
		fail("start", 0);
	klog_record r = shared_record();
	if (klog_run(&shared, &r, &shared_outcome) ||
	    klog_transform(&shared, &source, room, (size_t)(end - room), &shared_batches, &stop) ||
	    klog_output_at(&shared_batches, 0, &shared_told) ||
	    klog_explain(images[0].bytes, images[0].length, KLOG_TABLE_ONE, 0, &shared_text))
		fail("make_shared", 0);
	free(room);
}

static void free_shared(void)
{
	klog_free(&shared);
	klog_free(&shared_headers);
	klog_free(&shared_outcome);
	klog_free(&shared_batches);
	klog_free(&shared_text);
}

static void *work(void *at)
{
	static void (*const calls[])(struct worker *) = {load, load, load, compile, fault_text, share, explain,
							 add_header, add_header, run, run, run, emissions, emissions,
							 forward, transform, transform, outputs, forward_batch, read_shared,
							 transform_within};
	struct worker *w = at;
	while (time(NULL) < end) {
		calls[below(w, sizeof calls / sizeof calls[0])](w);
		if (one_in(w, 8))
			klog_free(handle(w, 2 * below(w, 5)));
		w->calls++;
	}
	for (size_t k = 0; k < HANDLES; k++)
		klog_free(&w->handles[k]);
	klog_free(&w->forward);
	forget_headers(w);
	klog_free(&w->outcome);
	klog_free(&w->batches);
	return NULL;
}

static void read_image(const char *name)
{
	static uint8_t bytes[LONGEST];
	FILE *file = fopen(name, "rb");
	if (!file || image_count == IMAGES)
		fail(name, 0);
	struct image *image = &images[image_count++];
	image->length = fread(bytes, 1, sizeof bytes, file);
	image->bytes = malloc(image->length + 1);
	if (!image->bytes)
		fail("malloc", 0);
	memcpy(image->bytes, bytes, image->length);
	fclose(file);
}

int main(int argc, char **argv)
{
	if (argc < 5) {
		fprintf(stderr, "usage: library_driver SECONDS THREADS SEED IMAGE ..\n");
		return 2;
	}
	static struct worker workers[MOST_THREADS];
	size_t threads = strtoul(argv[2], NULL, 10);
	unsigned long calls = 0, runs = 0, transforms = 0, headers = 0;
	make_crc_table();
	for (int k = 4; k < argc; k++)
		read_image(argv[k]);
	if (threads < 1 || threads > MOST_THREADS)
		fail("start", 0);
	for (size_t k = 0; k < threads; k++)
		workers[k].state = strtoul(argv[3], NULL, 10) * 64 + k + 88172645463325252ull;
	make_shared(&workers[0]);
	load_files(&workers[0]);
	end = time(NULL) + (time_t)strtoul(argv[1], NULL, 10);
	for (size_t k = 0; k < threads; k++) {
		if (klog_share(&shared, &workers[k].forward))
			fail("share", 0);
		if (pthread_create(&workers[k].thread, NULL, work, &workers[k]))
			fail("thread", 0);
	}
	for (size_t k = 0; k < threads; k++) {
		pthread_join(workers[k].thread, NULL);
		calls += workers[k].calls;
		runs += workers[k].runs;
		transforms += workers[k].transforms;
		headers += workers[k].headers;
	}
	free_shared();
	for (size_t k = 0; k < image_count; k++)
		free(images[k].bytes);
	printf("%lu calls, %lu of them runs, %lu transforms and %lu added headers, no fault\n", calls, runs, transforms,
	       headers);
	return 0;
}
