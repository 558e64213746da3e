/* Calls all functions of the C library in any order, with handles of each kind, null pointers, numbers at and beyond their
 * limits, short and long buffers, and memory that runs out. A null pointer is told as one, and after each call that does
 * nothing all handles and buffers are as they were.
 *
 * An input is a list of calls: a byte for the function, one for the request for memory that is refused (from 40 on none),
 * and what the function's arguments take. Where the bytes end, zeros follow. A new function is a row of `calls`. */
#include "klog_engine.h"
#include "plain.h"
#include "program_file.h"
#include "refusal.h"
#include "samples.h"

#include <stdio.h>
#include <stdlib.h>
#include <string.h>

enum { HANDLES = 10, MOST_CALLS = 60, LONGEST = 5000, BEYOND = 0x5a };

/* Handles that mostly hold one kind: two from each number on. */
enum kind { PROGRAM = 0, BATCHES = 2, HEADERS = 4, OUTCOME = 6, TEXT = 8 };

/* What is left of the input. */
struct source {
	const uint8_t *at;
	size_t length;
};

static struct source rest;
static klog_handle handles[HANDLES];

static struct {
	unsigned long inputs, calls, fine, without_memory;
} done;

static void tell(void)
{
	fprintf(stderr, "called: %lu inputs, %lu calls, %lu of them did something, %lu ran out of memory\n", done.inputs,
		done.calls, done.fine, done.without_memory);
}

static uint8_t byte(void)
{
	if (!rest.length)
		return 0;
	rest.length--;
	return *rest.at++;
}

/* True for `of` of 256 bytes. */
static bool chance(unsigned of)
{
	return byte() < of;
}

/* Small, at a limit, or any. */
static uint64_t number(void)
{
	static const uint64_t ends[] = {0,    1,       2,       3,      15,     16,            17,       63,	   64,
					65,   255,     256,     4095,   4096,   4097,          131072,   131073,   1048576,
					1048577, LIMIT_62 - 1, LIMIT_62, LIMIT_62 + 1, INT64_MAX, 1ull << 63, ~0ull};
	uint8_t choice = byte();
	if (choice < sizeof ends / sizeof ends[0])
		return ends[choice];
	return choice < 200 ? choice % 24 : (uint64_t)byte() << (byte() & 63);
}

/* A handle that mostly holds what is asked for, any other, or none. */
static klog_handle *handle(enum kind kind)
{
	uint8_t choice = byte();
	if (choice < 200)
		return &handles[(size_t)kind + choice % 2u];
	return choice < 246 ? &handles[choice % HANDLES] : NULL;
}

/* A length of memory that can be had. */
static size_t room(void)
{
	return number() % LONGEST;
}

/* A block of exactly this length, with the bytes that come next in the input, which stay there. */
static uint8_t *block(size_t length)
{
	uint8_t *bytes = granted_malloc(length ? length : 1);
	if (!bytes)
		fail("malloc", length);
	for (size_t k = 0; k < length; k++)
		bytes[k] = k < rest.length ? rest.at[k] : BEYOND;
	return bytes;
}

/* An image, mostly of the list, in a block of its length. */
static uint8_t *some_image(size_t *length)
{
	uint8_t bytes[LONGEST_SAMPLE], choice = byte();
	if (choice >= 200) {
		*length = byte() * 8u;
		return block(*length);
	}
	*length = sample_image(choice, bytes);
	return copy_of(bytes, *length);
}

/* An image, or a program file of one, mostly with all helpers and sometimes cut. */
static uint8_t *some_program(size_t *length)
{
	size_t size;
	uint8_t *image = some_image(&size), choice = byte();
	if (choice < 100) {
		*length = size;
		return image;
	}
	uint8_t *file = program_file_of(image, size, choice < 180 ? 3 : choice % 5u, byte() % 4u, &size);
	free(image);
	*length = chance(40) ? byte() % (size + 1) : size;
	uint8_t *cut = copy_of(file, *length);
	free(file);
	return cut;
}

/* Up to three batches, sometimes cut, or the bytes of the input, mended. */
static uint8_t *some_batches(size_t *length)
{
	uint8_t bytes[3 * LONGEST_SAMPLE], choice = byte();
	if (choice >= 128) {
		*length = rest.length < 500 ? rest.length : 500;
		uint8_t *own = block(*length);
		repair_batches(own, *length, choice % 64);
		return own;
	}
	size_t count = choice % 4, one = 0;
	for (size_t k = 0; k < count; k++)
		one = sample_batch(bytes + k * one);
	repair_batches(bytes, count * one, REPAIR_CHECKSUM);
	*length = count * one;
	*length -= choice >= 100 && *length ? choice % 20 : 0;
	return copy_of(bytes, *length);
}

static uint32_t table(void)
{
	uint8_t choice = byte();
	return choice < 80 ? KLOG_TABLE_ONE + choice % 2u : choice < 240 ? KLOG_TABLE_OWN : choice;
}

/* A length that no block has stands for a long one, which is refused before it is read. */
static size_t stated(size_t length, size_t longest)
{
	uint64_t other = number();
	return chance(10) && other > longest ? (size_t)other : length;
}

/* A null pointer, or a handle that is given twice, is told before all else, and nothing else is told so. */
static uint32_t told(uint32_t fault, bool is_null)
{
	if ((fault == KLOG_NULL) != is_null)
		fail(is_null ? "a null pointer that was taken" : "a null pointer that was not given", fault);
	return fault;
}

static uint32_t call_load(void)
{
	size_t length, place = 0;
	uint8_t *image = some_program(&length);
	uint32_t of = table();
	bool is_null = chance(8), has_place = !chance(5);
	size_t given = stated(length, PTRDIFF_MAX);
	klog_handle *to = handle(PROGRAM);
	uint32_t fault = klog_load(is_null ? NULL : image, given, of, to, has_place ? &place : NULL);
	free(image);
	return told(fault, !to || !has_place || (is_null && given));
}

/* A text of rules, mostly of the list and sometimes changed or cut, or the bytes of the input. */
static uint8_t *some_rules(size_t *length)
{
	uint8_t bytes[LONGEST_SAMPLE], choice = byte();
	if (choice >= 200) {
		*length = byte();
		return block(*length);
	}
	*length = sample_rules(choice, bytes);
	if (*length && chance(60))
		bytes[byte() % *length] = byte();
	if (chance(30))
		*length = byte() % (*length + 1);
	return copy_of(bytes, *length);
}

/* What a compiled text is, is loaded. */
static void load_compiled(const uint8_t *file, size_t length)
{
	klog_handle program = KLOG_NOTHING;
	size_t place;
	uint32_t fault = klog_load(file, length, KLOG_TABLE_OWN, &program, &place);
	if (fault && fault != KLOG_MEMORY)
		fail("compiled rules that are refused", fault);
	klog_free(&program);
}

/* What a compile leaves as it was: the buffer behind what was written, and the spot unless the text is refused. */
static void look_at_compiled(uint32_t fault, size_t written, size_t space, const klog_spot *spot, const uint8_t *buffer,
			     const uint8_t *before)
{
	bool is_refused = fault > KLOG_RULES, is_same = spot->line == 7777 && spot->column == 7777 && spot->rule == 7777;
	size_t used = fault ? 0 : written;
	if (used > space || memcmp(buffer + used, before + used, space - used))
		fail("a buffer that changed", fault);
	if (fault == KLOG_ROOM ? written <= space || written > KLOG_COMPILED : fault && written != 7777)
		fail("a length that was written", written);
	if (is_refused == is_same || (is_refused && (spot->line && spot->column) == (spot->rule != 0)))
		fail("the spot of a text", spot->line);
}

static uint32_t call_compile(void)
{
	size_t length, space = room(), written = 7777;
	klog_spot spot = {7777, 7777, 7777};
	uint8_t *text = some_rules(&length), *buffer = block(space), *before = copy_of(buffer, space);
	bool is_null = chance(8), has_written = !chance(5), has_spot = !chance(5);
	size_t given = stated(length, PTRDIFF_MAX);
	uint8_t *to = chance(8) ? NULL : buffer;
	uint32_t fault = klog_compile(is_null ? NULL : text, given, to, space, has_written ? &written : NULL,
				      has_spot ? &spot : NULL);
	if (has_written && has_spot)
		look_at_compiled(fault, written, space, &spot, buffer, before);
	if (!fault)
		load_compiled(buffer, written);
	free(before);
	free(buffer);
	free(text);
	return told(fault, !has_written || !has_spot || (is_null && given) || (!to && space));
}

static uint32_t call_fault_text(void)
{
	size_t length = 9, space = number() % 300;
	uint8_t *buffer = block(space);
	bool is_null = chance(8), has_length = !chance(8);
	uint32_t of = (uint32_t)number();
	size_t place = (size_t)number();
	uint32_t fault = klog_fault_text(of, place, is_null ? NULL : (char *)buffer, space, has_length ? &length : NULL);
	if (!fault && length > 64)
		fail("the length of a text", length);
	free(buffer);
	return told(fault, !has_length || (is_null && space));
}

static uint32_t call_share(void)
{
	klog_handle *from = handle(PROGRAM), *to = handle(PROGRAM);
	return told(klog_share(from, to), !from || !to || from == to);
}

static uint32_t call_transform(void)
{
	klog_source source = {number(), (size_t)number(), (size_t)number()};
	klog_stop stop = {7, 7, 7};
	if (chance(180))
		source = (klog_source){source.offset & 255, source.partition & 63, 1 + source.outputs % 64};
	size_t length;
	uint8_t *bytes = some_batches(&length);
	bool has_source = !chance(5), has_stop = !chance(5), has_limit = chance(80);
	size_t given = chance(3) ? (size_t)PTRDIFF_MAX + 1 + byte() : length;
	uint64_t limit = has_limit ? number() : UINT64_MAX;
	klog_handle *program = handle(PROGRAM), *to = handle(BATCHES);
	const klog_source *from = has_source ? &source : NULL;
	klog_stop *at = has_stop ? &stop : NULL;
	uint32_t fault = has_limit ? klog_transform_within(program, from, bytes, given, limit, to, at)
				   : klog_transform(program, from, bytes, given, to, at);
	if (fault == KLOG_LIMIT && !has_limit)
		fail("a limit that nobody set", fault);
	free(bytes);
	return told(fault, !program || !has_source || !to || !has_stop || program == to);
}

static uint32_t call_counts(void)
{
	klog_counts counts;
	klog_handle *of = handle(BATCHES);
	bool has_counts = !chance(5);
	return told(klog_counts_of(of, has_counts ? &counts : NULL), !of || !has_counts);
}

static uint32_t call_reject(void)
{
	klog_reject reject;
	klog_handle *of = handle(BATCHES);
	size_t at = (size_t)number();
	bool has_reject = !chance(5);
	return told(klog_reject_at(of, at, has_reject ? &reject : NULL), !of || !has_reject);
}

static uint32_t call_output(void)
{
	klog_output output;
	klog_handle *of = handle(BATCHES);
	size_t at = (size_t)number();
	bool has_output = !chance(5);
	return told(klog_output_at(of, at, has_output ? &output : NULL), !of || !has_output);
}

static uint32_t call_add_header(void)
{
	size_t key_length = room(), value_length = room();
	uint8_t *key = block(key_length), *value = block(value_length);
	for (size_t k = 0; chance(150) && k < key_length; k++)
		key[k] &= 127;
	bool has_key = !chance(8), has_value = !chance(40);
	size_t key_given = stated(key_length, PTRDIFF_MAX), value_given = stated(value_length, PTRDIFF_MAX);
	klog_handle *to = handle(HEADERS);
	uint32_t fault = klog_add_header(to, has_key ? key : NULL, key_given, has_value ? value : NULL, value_given);
	free(key);
	free(value);
	return told(fault, !to || (!has_key && key_given) || (!has_value && value_given));
}

static uint32_t call_run(void)
{
	size_t key_length = room(), value_length = (size_t)number();
	value_length = value_length > 1048577 ? value_length % 100 : value_length;
	uint8_t *key = block(key_length), *value = block(value_length);
	klog_record record = {.offset = number(), .timestamp = number()};
	record.partition = (size_t)number();
	record.outputs = (size_t)number();
	record.key = chance(40) ? NULL : key;
	record.key_length = record.key || chance(128) ? key_length : 0;
	record.value = chance(40) ? NULL : value;
	record.value_length = record.value || chance(128) ? value_length : 0;
	if (chance(200)) {
		record.offset >>= 2;
		record.timestamp >>= 2;
		record.partition &= 63;
		record.outputs = 1 + record.outputs % 64;
	}
	record.headers = handle(HEADERS);
	klog_handle *program = handle(PROGRAM), *outcome = handle(OUTCOME);
	bool has_record = !chance(5);
	uint32_t fault = klog_run(program, has_record ? &record : NULL, outcome);
	free(key);
	free(value);
	return told(fault, !program || !has_record || !outcome || program == outcome || (!record.key && record.key_length) ||
				   (!record.value && record.value_length) ||
				   (record.headers && (record.headers == program || record.headers == outcome)));
}

static uint32_t call_outcome(void)
{
	uint64_t code;
	size_t count;
	klog_handle *of = handle(OUTCOME);
	bool has_code = !chance(5), has_count = !chance(5);
	return told(klog_outcome(of, has_code ? &code : NULL, has_count ? &count : NULL), !of || !has_code || !has_count);
}

static uint32_t call_emission(void)
{
	klog_emission emission;
	klog_handle *of = handle(OUTCOME);
	size_t at = (size_t)number();
	bool has_emission = !chance(5);
	return told(klog_emission_at(of, at, has_emission ? &emission : NULL), !of || !has_emission);
}

static uint32_t call_emission_header(void)
{
	klog_header header;
	klog_handle *of = handle(OUTCOME);
	size_t emission = (size_t)number(), at = (size_t)number();
	bool has_header = !chance(5);
	return told(klog_emission_header(of, emission, at, has_header ? &header : NULL), !of || !has_header);
}

/* Copies some part to a buffer, which stays as it was where the call does nothing. */
static uint32_t call_copy(void)
{
	size_t space = room(), emission = (size_t)number(), at = (size_t)number();
	uint8_t *buffer = block(space), *before = copy_of(buffer, space), choice = byte();
	klog_handle *of = handle(choice % 5 == 4 ? BATCHES : OUTCOME);
	uint8_t *to = chance(8) ? NULL : buffer;
	uint32_t fault = choice % 5 == 0   ? klog_emission_key(of, emission, to, space)
			 : choice % 5 == 1 ? klog_emission_value(of, emission, to, space)
			 : choice % 5 == 2 ? klog_emission_header_key(of, emission, at, to, space)
			 : choice % 5 == 3 ? klog_emission_header_value(of, emission, at, to, space)
					   : klog_output_batches(of, emission, to, space);
	if (fault && memcmp(buffer, before, space))
		fail("a buffer that changed", fault);
	free(before);
	free(buffer);
	return told(fault, !of || (!to && space));
}

static uint32_t call_explain(void)
{
	size_t length;
	uint8_t *image = some_program(&length);
	bool is_null = chance(8), is_alone = chance(128);
	uint32_t of = table();
	size_t given = stated(length, 1048576);
	klog_handle *to = handle(TEXT);
	uint32_t fault = klog_explain(is_null ? NULL : image, given, of, is_alone, to);
	free(image);
	return told(fault, !to || (is_null && given));
}

static uint32_t call_text(void)
{
	size_t space = room(), length = 0;
	uint8_t *buffer = block(space);
	bool is_null = chance(8), has_length = !chance(8);
	klog_handle *text = handle(TEXT);
	uint32_t fault = klog_text(text, is_null ? NULL : (char *)buffer, space, has_length ? &length : NULL);
	free(buffer);
	return told(fault, !text || !has_length || (is_null && space));
}

static uint32_t call_free(void)
{
	klog_handle *of = handle(byte() % HANDLES & ~1u);
	klog_free(of);
	if (of && (of->at || of->full))
		fail("a handle that was freed", of->full);
	return KLOG_OK;
}

static uint32_t call_version(void)
{
	return klog_version() == KLOG_VERSION ? KLOG_OK : KLOG_RANGE;
}

static uint32_t (*const calls[])(void) = {
	call_load,   call_load,   call_fault_text, call_share, call_transform, call_transform, call_counts,
	call_reject, call_output, call_add_header, call_run,   call_run,       call_outcome,   call_emission,
	call_copy,   call_copy,   call_copy,       call_text,  call_explain,   call_free,      call_emission_header,
	call_version, call_compile,
};

static bool is_fault(uint32_t number_of)
{
	return (number_of >= KLOG_MEMORY && number_of < KLOG_IMAGE) ||
	       (number_of > KLOG_IMAGE && number_of <= KLOG_IMAGE + 6) ||
	       (number_of > KLOG_VERIFIER && number_of <= KLOG_VERIFIER + 13) ||
	       (number_of > KLOG_BATCH && number_of <= KLOG_BATCH + 9) ||
	       (number_of > KLOG_FILE && number_of <= KLOG_FILE + 4) ||
	       (number_of > KLOG_RULES && number_of <= KLOG_RULES + 9 && number_of != KLOG_RULES + 8);
}

static void call_one(void)
{
	klog_handle before[HANDLES];
	uint8_t choice = byte(), refused = byte();
	memcpy(before, handles, sizeof handles);
	if (refused < 40)
		refuse_memory_after(refused, refused & 1);
	uint32_t fault = calls[choice % (sizeof calls / sizeof calls[0])]();
	grant_memory();
	if (fault && !is_fault(fault))
		fail("the number of a fault", fault);
	if (fault == KLOG_MEMORY && refused >= 40)
		fail("memory that was there", fault);
	if (fault && memcmp(before, handles, sizeof handles))
		fail("a handle that changed", fault);
	for (size_t k = 0; k < HANDLES; k++) {
		if (handles[k].full > 1 || (handles[k].full == 1) != (handles[k].at != NULL))
			fail("a handle", k);
	}
	done.calls++;
	done.fine += !fault;
	done.without_memory += fault == KLOG_MEMORY;
}

int LLVMFuzzerInitialize(int *count, char ***words)
{
	(void)count;
	(void)words;
	atexit(tell);
	return 0;
}

int LLVMFuzzerTestOneInput(const uint8_t *data, size_t size)
{
	rest = (struct source){data, size};
	memset(handles, 0, sizeof handles);
	done.inputs++;
	for (int k = 0; k < MOST_CALLS && rest.length; k++)
		call_one();
	for (size_t k = 0; k < HANDLES; k++)
		klog_free(&handles[k]);
	return 0;
}
