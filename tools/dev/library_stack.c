/* Measures the stack that each function of the C library takes: library_stack BATCHES RULES IMAGE .., called by
 * library_stack.py. RULES are texts of rules, each before a zero byte.
 * Each call runs in a thread whose stack was painted before; what lies between the caller's frame and the deepest byte
 * that lost its paint is what the call took, with the calls of malloc, realloc, memcpy and free below it. */
#include "klog_engine.h"

#include <pthread.h>
#include <stdbool.h>
#include <stdio.h>
#include <stdlib.h>
#include <string.h>

/* What each call may take. Most is what a thread has here. */
enum { ALLOWED = 20000, MOST = 1 << 20, PAINT = 0x5a, LONGEST = 8 << 20 };

static uint8_t *stack;
static uint8_t *batches_at;
static size_t batches_length;
static uint8_t *rules_at;
static size_t rules_length;
static uint8_t *image;
static size_t image_length;
static uint32_t table;
static klog_handle program, other, batches, headers, outcome, text;
static uint8_t key[4096], value[1048576];
static uint8_t *room;

static uint32_t call_load(void)
{
	size_t place;
	return klog_load(image, image_length, table, &program, &place);
}

/* Compiles each text of rules. */
static uint32_t call_compile(void)
{
	size_t length, written;
	klog_spot spot;
	for (size_t at = 0; at < rules_length; at += length + 1) {
		length = strlen((const char *)rules_at + at);
		klog_compile(rules_at + at, length, room, LONGEST, &written, &spot);
	}
	return KLOG_OK;
}

static uint32_t call_fault_text(void)
{
	static const uint32_t faults[] = {1, 8, 101, 106, 201, 213, 301, 308, 309, 999};
	size_t length;
	for (size_t k = 0; k < sizeof faults / sizeof faults[0]; k++)
		klog_fault_text(faults[k], (size_t)-1 - k, (char *)room, 64, &length);
	return KLOG_OK;
}

static uint32_t call_share(void)
{
	return klog_share(&program, &other);
}

static uint32_t call_add_header(void)
{
	klog_free(&headers);
	for (int k = 0; k < KLOG_HEADERS; k++) {
		if (klog_add_header(&headers, key, 255, k % 2 ? value : NULL, k % 2 ? 4096 : 0))
			return 1;
	}
	return klog_add_header(&headers, key, 1, NULL, 0) == KLOG_RANGE ? KLOG_OK : 1;
}

static uint32_t call_run(void)
{
	klog_record record = {.key = key,
			      .key_length = sizeof key,
			      .value = value,
			      .value_length = sizeof value,
			      .outputs = 64,
			      .headers = &headers};
	return klog_run(&program, &record, &outcome);
}

static uint32_t call_outcome(void)
{
	uint64_t code;
	size_t count;
	return klog_outcome(&outcome, &code, &count);
}

/* Calls each reader of the first emission, which an outcome may lack. */
static uint32_t call_emission(void)
{
	klog_emission told;
	klog_header header;
	klog_emission_at(&outcome, 0, &told);
	klog_emission_key(&outcome, 0, room, LONGEST);
	klog_emission_value(&outcome, 0, room, LONGEST);
	klog_emission_header(&outcome, 0, 0, &header);
	klog_emission_header_key(&outcome, 0, 0, room, LONGEST);
	klog_emission_header_value(&outcome, 0, 0, room, LONGEST);
	return KLOG_OK;
}

static uint32_t call_transform(void)
{
	klog_source source = {.outputs = 64};
	klog_stop stop;
	return klog_transform(&program, &source, batches_at, batches_length, &batches, &stop);
}

static uint32_t call_batches(void)
{
	klog_counts counts;
	klog_reject reject;
	klog_output output;
	klog_reject_at(&batches, 0, &reject);
	klog_output_at(&batches, 0, &output);
	klog_output_batches(&batches, 0, room, LONGEST);
	return klog_counts_of(&batches, &counts);
}

static uint32_t call_explain(void)
{
	uint32_t fault = klog_explain(image, image_length, table, 0, &text);
	return fault ? fault : klog_explain(image, image_length, table, 1, &text);
}

static uint32_t call_text(void)
{
	size_t length;
	return klog_text(&text, (char *)room, LONGEST, &length) == KLOG_KIND ? KLOG_KIND : KLOG_OK;
}

static uint32_t call_free(void)
{
	klog_handle *const all[] = {&program, &other, &batches, &headers, &outcome, &text};
	for (size_t k = 0; k < sizeof all / sizeof all[0]; k++)
		klog_free(all[k]);
	return KLOG_OK;
}

static struct row {
	const char *name;
	uint32_t (*call)(void);
	bool needs_program;
	bool is_once; /* it takes no image */
	size_t deepest;
	uint32_t fault;
	uint8_t *frame;
} rows[] = {
	{.name = "klog_load", .call = call_load},
	{.name = "klog_compile", .call = call_compile, .is_once = true},
	{.name = "klog_explain", .call = call_explain},
	{.name = "klog_text", .call = call_text},
	{.name = "klog_fault_text", .call = call_fault_text},
	{.name = "klog_share", .call = call_share, .needs_program = true},
	{.name = "klog_add_header", .call = call_add_header},
	{.name = "klog_run", .call = call_run, .needs_program = true},
	{.name = "klog_outcome", .call = call_outcome, .needs_program = true},
	{.name = "klog_emission_ ..", .call = call_emission, .needs_program = true},
	{.name = "klog_transform", .call = call_transform, .needs_program = true},
	{.name = "klog_counts_of, klog_reject_at, klog_output_ ..", .call = call_batches, .needs_program = true},
	{.name = "klog_free", .call = call_free},
};

enum { ROWS = sizeof rows / sizeof rows[0] };

static void fail(const char *what)
{
	fprintf(stderr, "library_stack: %s\n", what);
	exit(1);
}

static void *in_thread(void *at)
{
	struct row *row = at;
	row->frame = __builtin_frame_address(0);
	row->fault = row->call();
	return NULL;
}

/* Runs the call of a row in a thread with a painted stack. */
static void measure(struct row *row)
{
	pthread_t thread;
	pthread_attr_t how;
	memset(stack, PAINT, MOST);
	if (pthread_attr_init(&how) || pthread_attr_setstack(&how, stack, MOST) ||
	    pthread_create(&thread, &how, in_thread, row) || pthread_join(thread, NULL))
		fail("there is no thread");
	pthread_attr_destroy(&how);
	size_t at = 0;
	while (stack[at] == PAINT)
		at++;
	size_t taken = (size_t)(row->frame - (stack + at));
	row->deepest = taken > row->deepest ? taken : row->deepest;
}

static uint8_t *read_file(const char *name, size_t *length)
{
	uint8_t *bytes = malloc(LONGEST);
	FILE *file = fopen(name, "rb");
	if (!bytes || !file)
		fail(name);
	*length = fread(bytes, 1, LONGEST, file);
	fclose(file);
	return bytes;
}

/* All calls with one image, by each helper table: whether one of these accepted it. */
static bool measure_all(void)
{
	bool is_accepted = false;
	for (table = KLOG_TABLE_ONE; table <= KLOG_TABLE_TWO; table++) {
		bool has_program = false;
		for (size_t k = 0; k < ROWS; k++) {
			if ((rows[k].needs_program && !has_program) || (rows[k].is_once && rows[k].deepest))
				continue;
			measure(&rows[k]);
			has_program = k == 0 ? !rows[k].fault : has_program;
			if (rows[k].fault && k)
				fail(rows[k].name);
		}
		is_accepted = is_accepted || has_program;
	}
	return is_accepted;
}

int main(int argc, char **argv)
{
	int accepted = 0, is_deep = 0;
	if (argc < 4) {
		fprintf(stderr, "usage: library_stack BATCHES RULES IMAGE ..\n");
		return 2;
	}
	if (posix_memalign((void **)&stack, 4096, MOST) || !(room = malloc(LONGEST)))
		fail("memory ran out");
	memset(key, 'k', sizeof key);
	batches_at = read_file(argv[1], &batches_length);
	rules_at = read_file(argv[2], &rules_length);
	for (int k = 3; k < argc; k++) {
		image = read_file(argv[k], &image_length);
		accepted += measure_all();
		free(image);
	}
	for (size_t k = 0; k < ROWS; k++) {
		printf("%6zu %s\n", rows[k].deepest, rows[k].name);
		is_deep |= rows[k].deepest > ALLOWED;
	}
	printf("%d images, %d of them accepted: %s than %d bytes of stack\n", argc - 3, accepted,
	       is_deep ? "a call took more" : "no call took more", ALLOWED);
	free(batches_at);
	free(rules_at);
	free(stack);
	free(room);
	return is_deep;
}
