/* Loads programs, and compiles rules, while memory is refused. tools/dev/refuse_each.py runs each test once for each request
 * for memory that it makes, with that one refused:
 *	cc -std=c99 -IFOLDER tools/dev/library_memory.c FOLDER/libklog.a -o FOLDER/library_memory &&
 *		tools/dev/refuse_each.py FOLDER/library_memory
 * A call that is refused memory has to return KLOG_MEMORY, to leave its handle or its buffer, and what it tells, as they
 * were, and to do its work when it is made again; with no request refused it has to do so at once. `--list` prints the names
 * of the tests, and a name runs one. */
#include "klog_engine.h"

#include <stdbool.h>
#include <stdio.h>
#include <stdlib.h>
#include <string.h>

/* What `*place` is before a load; no refusal has this place. */
static const size_t mark = 77777;

/* mov64 r1, 0; call 3; mov64 r0, 0; exit */
static const uint8_t forward[] = {0xb7, 1, 0, 0, 0, 0, 0, 0, 0x85, 0, 0, 0, 3, 0, 0, 0,
				  0xb7, 0, 0, 0, 0, 0, 0, 0, 0x95, 0, 0, 0, 0, 0, 0, 0};

/* mov64 r1, 0; mov64 r0, r6; exit */
static const uint8_t unset[] = {0xb7, 1, 0, 0, 0, 0, 0, 0, 0xbf, 0x60, 0, 0, 0, 0, 0, 0, 0x95, 0, 0, 0, 0, 0, 0, 0};

/* mov64 r0, 0; an unknown opcode */
static const uint8_t unknown[] = {0xb7, 0, 0, 0, 0, 0, 0, 0, 0xff, 0, 0, 0, 0, 0, 0, 0};

struct test {
	const char *name;
	const uint8_t *image;
	size_t length;
	bool is_full; /* whether the handle holds a program before */
	uint32_t fault; /* what the load returns with memory, and of a refusal the place */
	size_t place;
};

static const struct test tests[] = {
	{"load_accepted", forward, sizeof forward, false, KLOG_OK, 0},
	{"load_over_another", forward, sizeof forward, true, KLOG_OK, 0},
	{"load_refused", unset, sizeof unset, true, 204, 1},
	{"load_without_code", unknown, sizeof unknown, true, 102, 1},
};

static void fail(const char *what, uint32_t number)
{
	printf("%s: %u\n", what, (unsigned)number);
	exit(1);
}

/* Whether a request of this run is refused. */
static bool is_refused(void)
{
	const char *number = getenv("REFUSE");
	return number && strcmp(number, "0");
}

static bool is_same(const klog_handle *a, const klog_handle *b)
{
	return a->at == b->at && a->full == b->full;
}

/* A load of a test into a handle, with the mark as its place before. */
static uint32_t load(const struct test *test, klog_handle *program, size_t *place)
{
	*place = mark;
	return klog_load(test->image, test->length, KLOG_TABLE_ONE, program, place);
}

static void run(const struct test *test)
{
	klog_handle program = KLOG_NOTHING;
	size_t place;
	if (test->is_full && load(&tests[0], &program, &place) != KLOG_OK)
		return;
	klog_handle before = program;
	uint32_t fault = load(test, &program, &place);
	if (is_refused()) {
		if (fault != KLOG_MEMORY)
			fail("the load was refused memory and returned", fault);
		printf("refused klog_load: KLOG_MEMORY\n");
		if (place != mark || !is_same(&before, &program))
			fail("the load was refused memory and changed its place or its handle", fault);
		fault = load(test, &program, &place);
	}
	if (fault != test->fault || place != (fault == KLOG_OK ? mark : test->place))
		fail("the load returned", fault);
	if (fault == KLOG_OK ? !program.full || is_same(&before, &program) : !is_same(&before, &program))
		fail("the handle after", fault);
	klog_free(&program);
}

static const struct rules {
	const char *name, *text;
	uint32_t fault;
	size_t column;
} rules[] = {
	{"compile", "drop when not (key = \"a\" or value has \"b\")\noutput hash(key) % 4 when u16be(value, 0) > 7\n", KLOG_OK, 0},
	{"compile_refused", "drop when key = \"a\" and\n", 507, 24},
};

/* A compile of a test, with the mark as what it tells before, and zeros in the buffer. */
static uint32_t compile(const struct rules *test, uint8_t *buffer, size_t room, size_t *written, klog_spot *spot)
{
	*written = mark;
	*spot = (klog_spot){mark, mark, mark};
	memset(buffer, 0, room);
	return klog_compile((const uint8_t *)test->text, strlen(test->text), buffer, room, written, spot);
}

static void run_rules(const struct rules *test)
{
	static uint8_t buffer[4096], zeros[4096];
	size_t written;
	klog_spot spot;
	uint32_t fault = compile(test, buffer, sizeof buffer, &written, &spot);
	if (is_refused()) {
		if (fault != KLOG_MEMORY)
			fail("the compile was refused memory and returned", fault);
		printf("refused klog_compile: KLOG_MEMORY\n");
		if (written != mark || spot.line != mark || memcmp(buffer, zeros, sizeof buffer))
			fail("the compile was refused memory and told or wrote something", fault);
		fault = compile(test, buffer, sizeof buffer, &written, &spot);
	}
	if (fault != test->fault || spot.column != (fault ? test->column : mark))
		fail("the compile returned", fault);
	if (fault ? written != mark : written % 8 || memcmp(buffer, "KLOG\1\0\0\0\3\0\0\0", 12))
		fail("the compile wrote", (uint32_t)written);
}

/* Lists a test, or runs it where it has the name. */
static bool is_found(const char *word, const char *name)
{
	bool is_list = !strcmp(word, "--list");
	if (is_list)
		printf("%s: test\n", name);
	return is_list || !strcmp(word, name);
}

int main(int argc, char **argv)
{
	const char *word = argc == 2 ? argv[1] : "";
	bool is_list = !strcmp(word, "--list");
	size_t found = 0;
	for (size_t k = 0; k < sizeof tests / sizeof tests[0]; k++)
		if (is_found(word, tests[k].name)) {
			found++;
			if (!is_list)
				run(&tests[k]);
		}
	for (size_t k = 0; k < sizeof rules / sizeof rules[0]; k++)
		if (is_found(word, rules[k].name)) {
			found++;
			if (!is_list)
				run_rules(&rules[k]);
		}
	if (!found)
		fail("usage: library_memory --list, or the name of a test", (uint32_t)argc);
	return 0;
}
