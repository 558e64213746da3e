#include "loading.h"
#include "plain.h"
#include "program_file.h"
#include "refusal.h"

#include <stdlib.h>
#include <string.h>

enum { MARK = 77777 };

struct load_counts load_counts;

static bool is_same(klog_handle one, klog_handle other)
{
	return one.at == other.at && one.full == other.full;
}

bool is_refused(const char *call, uint32_t fault, klog_handle before, klog_handle after)
{
	grant_memory();
	if (fault && (fault != KLOG_MEMORY || !is_same(before, after)))
		fail(call, fault);
	load_counts.refusals += fault != 0;
	return fault != 0;
}

bool is_known_table(uint32_t table)
{
	return table == KLOG_TABLE_OWN || table == KLOG_TABLE_ONE || table == KLOG_TABLE_TWO;
}

static bool is_image_fault(uint32_t fault)
{
	return (fault > KLOG_IMAGE && fault <= KLOG_IMAGE + 6) || (fault > KLOG_VERIFIER && fault <= KLOG_VERIFIER + 13);
}

/* The fault and the place of a refused load have to be those of a plain reader, as far as that knows. */
static void check_refused_load(const struct loading *it, const struct plain_program *plain, uint32_t fault, size_t place)
{
	char text[64];
	size_t length;
	if (!is_known_table(it->table)) {
		if (fault != KLOG_RANGE)
			fail("load's table", fault);
		return;
	}
	if (plain->fault ? fault != plain->fault || place != MARK : !is_image_fault(fault) || place > plain->length / 8)
		fail("a refused load", fault);
	if (klog_fault_text(fault, place, text, sizeof text, &length))
		fail("the text of a fault", fault);
}

/* Loads an image by a table that can be named: the fault, and the place or MARK. */
static uint32_t loaded(const uint8_t *bytes, size_t length, uint32_t table, size_t *place)
{
	klog_handle program = KLOG_NOTHING;
	*place = MARK;
	uint32_t fault = klog_load(bytes, length, table, &program, place);
	klog_free(&program);
	return fault;
}

/* Loads the image alone, where the bytes are a file, and in a file, where they are an image. What a table accepts, one
 * with more helpers accepts too. An image that begins as a file can't be given alone. */
static void load_otherwise(const struct plain_program *plain, uint32_t fault, size_t place)
{
	size_t other_place, length;
	bool is_nested = plain->is_file && read_program(plain->image, plain->length, KLOG_TABLE_OWN).is_file;
	if (is_nested || plain->table > KLOG_TABLE_TWO)
		return;
	uint8_t *bytes = plain->is_file ? copy_of(plain->image, plain->length)
					: program_file_of(plain->image, plain->length, plain->table, 1, &length);
	if (plain->is_file)
		length = plain->length;
	uint32_t other = loaded(bytes, length, plain->is_file ? plain->table : KLOG_TABLE_OWN, &other_place);
	free(bytes);
	if (other != fault || other_place != place)
		fail("the same image in its other form", other);
	uint8_t *file = program_file_of(plain->image, plain->length, 3, 0, &length);
	other = loaded(file, length, KLOG_TABLE_OWN, &other_place);
	free(file);
	if (!fault && other)
		fail("an image that a greater table refuses", other);
}

static void load_without_memory(const struct loading *it, klog_handle *program)
{
	size_t place = MARK;
	klog_handle other = KLOG_NOTHING, before = other;
	refuse_memory_after(it->refused % 40, it->refuses_all);
	uint32_t fault = klog_load(it->bytes, it->length, it->table, &other, &place);
	if (!is_refused("a load without memory", fault, before, other) && klog_share(program, &other))
		fail("share", 0);
	if (place != MARK)
		fail("the place of a load without memory", place);
	klog_free(&other);
}

bool load(const struct loading *it, klog_handle *program)
{
	struct plain_program plain = read_program(it->bytes, it->length, it->table);
	size_t place = MARK;
	uint32_t fault = klog_load(it->bytes, it->length, it->table, program, &place);
	load_counts.accepted += !fault;
	load_counts.refused += fault != 0;
	load_counts.files += !fault && plain.is_file;
	load_counts.table_three += !fault && plain.table == 3;
	if (fault && (program->at || program->full))
		fail("a refused load's handle", fault);
	if (fault)
		check_refused_load(it, &plain, fault, place);
	else if (place != MARK || plain.fault || !is_known_table(it->table))
		fail("a load", place);
	if (is_known_table(it->table) && !plain.fault)
		load_otherwise(&plain, fault, place);
	if (!fault)
		load_without_memory(it, program);
	return !fault;
}

void explain(const struct loading *it, bool is_accepted, bool is_refused_alone)
{
	static const char end[] = "ok\n";
	struct plain_program plain = read_program(it->bytes, it->length, it->table);
	klog_handle text = KLOG_NOTHING;
	size_t length = 0;
	uint32_t fault = klog_explain(it->bytes, it->length, it->table, is_refused_alone, &text);
	if (fault != plain.fault)
		fail("explain", fault);
	if (fault)
		return;
	if (klog_text(&text, NULL, 0, &length) != KLOG_ROOM)
		fail("the length of an explanation", length);
	char *copy = malloc(length);
	if (!copy || klog_text(&text, copy, length, &length))
		fail("the text of an explanation", length);
	bool says_so = length >= 3 && !memcmp(copy + length - 3, end, 3);
	if (says_so != is_accepted)
		fail("explain's verdict", is_accepted);
	free(copy);
	klog_handle before = text;
	refuse_memory_after(it->refused, it->refuses_all);
	fault = klog_explain(it->bytes, it->length, it->table, is_refused_alone, &text);
	is_refused("explain without memory", fault, before, text);
	klog_free(&text);
}
