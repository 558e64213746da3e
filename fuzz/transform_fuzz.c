/* Loads a program, runs it on record batches by klog_transform, and does both once more with plain readers of program files
 * and batches and with klog_run on each record: the loads, the faults, the counts and each output's rows have to be the
 * same. A call that is refused memory, or whose rows pass a limit, has to leave everything as it was.
 *
 * An input is a head of 10 bytes, an image or a program file, and record batches. The head: how long the image is (2 bytes,
 * little-endian), the helper table, the outputs, the repairs of the batches (plain.h; from 64 on all), the offset and the
 * partition of the source, the request for memory that is refused, bits (all later requests too, explain, explain what is
 * refused alone), and the program file that the image is put into: its table in two bits, 0 for none, and above them which
 * slots have a line (program_file.h). */
#include "loading.h"
#include "plain.h"
#include "program_file.h"
#include "refusal.h"
#include "rows.h"

#include <stdio.h>
#include <stdlib.h>
#include <string.h>

enum { HEAD = 10, MARK = 77777 };

struct input {
	struct loading program;
	uint8_t *bytes;
	size_t length;
	klog_source source;
	bool explains, explains_alone;
};

static struct {
	unsigned long inputs, transforms, stops, limits, records, rows;
} done;

static void tell(void)
{
	fprintf(stderr,
		"compared: %lu inputs, %lu programs accepted, %lu of them of files, %lu of table 3, %lu refused, %lu transforms, "
		"%lu stopped at a batch, %lu by a limit, %lu records, %lu rows, %lu calls without memory\n",
		done.inputs, load_counts.accepted, load_counts.files, load_counts.table_three, load_counts.refused, done.transforms,
		done.stops, done.limits, done.records, done.rows, load_counts.refusals);
}

int LLVMFuzzerInitialize(int *count, char ***words)
{
	(void)count;
	(void)words;
	atexit(tell);
	return 0;
}

static uint64_t offset_of(uint8_t choice)
{
	static const uint64_t offsets[] = {0, 1, 255, 1ull << 32, LIMIT_62 - MOST_RECORDS - 1, LIMIT_62 - MOST_RECORDS,
					   LIMIT_62 - MOST_RECORDS + 1, LIMIT_62 - 1, LIMIT_62, LIMIT_62 + 1, 1ull << 63, ~0ull};
	return offsets[choice % (sizeof offsets / sizeof offsets[0])];
}

/* The program of an input: its bytes as they are, or in a program file, whose own table is then mostly taken. */
static struct loading program_of(const uint8_t *head, const uint8_t *image, size_t length)
{
	uint32_t of_file = head[9] & 3;
	struct loading it = {.length = length, .refused = head[7], .refuses_all = head[8] & 1};
	if (of_file)
		it.table = head[2] < 200 ? KLOG_TABLE_OWN : head[2] - 200u;
	else
		it.table = head[2] < 200 ? 1u + head[2] % 2u : head[2] < 240 ? KLOG_TABLE_OWN : head[2];
	it.bytes = of_file ? program_file_of(image, length, of_file, head[9] >> 2, &it.length) : copy_of(image, length);
	return it;
}

/* Mostly numbers within their limits. */
static struct input input_of(const uint8_t *data, size_t size)
{
	struct input it = {.explains = data[8] & 2, .explains_alone = data[8] & 4};
	it.source.outputs = data[3] < 200 ? 1 + data[3] % 64u : data[3] % 70u;
	it.source.offset = offset_of(data[5]);
	it.source.partition = data[6] < 200 ? data[6] % 64u : data[6];
	size_t stated = (size_t)(data[0] | data[1] << 8), left = size - HEAD, length = stated < left ? stated : left;
	it.program = program_of(data, data + HEAD, length);
	it.length = left - length;
	it.bytes = copy_of(data + HEAD + length, it.length);
	repair_batches(it.bytes, it.length, data[4] < 64 ? data[4] : 63);
	return it;
}

/* How many bytes are whole batches by the plain reader. Anything else is told by `*end`, whose fault is 0 at the end. */
static size_t whole_batches(const struct input *it, size_t *batches, struct plain_batch *end)
{
	size_t at = 0;
	for (*batches = 0; at < it->length; (*batches)++) {
		*end = read_batch(it->bytes + at, it->length - at);
		if (end->fault)
			return at;
		at += end->length;
	}
	*end = (struct plain_batch){0};
	return at;
}

static bool is_in_range(const klog_source *source)
{
	return source->offset <= LIMIT_62 && source->partition < 64 && source->outputs >= 1 && source->outputs <= 64;
}

/* What stopped a transform has to be there by the plain reader: the input is then cut to what comes before. */
static void check_stop(struct input *it, uint32_t fault, const klog_stop *stop)
{
	struct plain_batch end;
	size_t batches, whole = whole_batches(it, &batches, &end);
	if (fault == KLOG_FULL) {
		struct input before = *it;
		before.length = stop->byte;
		if (stop->byte > whole || whole_batches(&before, &batches, &end) != stop->byte || batches != stop->batch)
			fail("where a source is full", stop->byte);
	} else if (fault != end.fault || stop->batch != batches || stop->byte != whole || stop->record != end.record) {
		fail("the fault of a batch", fault);
	}
	it->length = stop->byte;
	done.stops++;
}

/* Runs the transform on all batches, or on those before the first fault: false where the source is refused. */
static bool transform(struct input *it, klog_handle *program, klog_handle *batches)
{
	klog_stop stop = {MARK, MARK, MARK};
	uint32_t fault = klog_transform(program, &it->source, it->bytes, it->length, batches, &stop);
	if (!is_in_range(&it->source)) {
		if (fault != KLOG_RANGE)
			fail("a source out of range", fault);
		return false;
	}
	if (fault) {
		if (batches->at || batches->full)
			fail("the batches of a refused transform", fault);
		check_stop(it, fault, &stop);
		fault = klog_transform(program, &it->source, it->bytes, it->length, batches, &stop);
	}
	if (fault)
		fail("transform", fault);
	done.transforms++;
	return true;
}

/* Compares the rows of an output. How many bytes its batches have. */
static size_t compare_output(klog_handle *batches, size_t number, const struct rows *wanted)
{
	klog_output told;
	if (klog_output_at(batches, number, &told))
		fail("output_at", number);
	uint8_t *bytes = malloc(told.length ? told.length : 1);
	if (!bytes || klog_output_batches(batches, number, bytes, told.length))
		fail("output_batches", number);
	if (told.length && klog_output_batches(batches, number, bytes, told.length - 1) != KLOG_ROOM)
		fail("output_batches' room", number);
	struct rows rows = rows_of(bytes, &told);
	if (rows.length != wanted->length || (rows.length && memcmp(rows.bytes, wanted->bytes, rows.length)))
		fail("the rows of an output", number);
	done.rows += rows.count;
	free(rows.bytes);
	free(bytes);
	return told.length;
}

static void compare_counts(klog_handle *batches, const struct single *run, size_t batch_count)
{
	klog_counts counts;
	uint64_t rejected = 0, last = 0;
	if (klog_counts_of(batches, &counts) || counts.batches != batch_count || counts.records != run->records ||
	    counts.kept != run->kept || counts.outputs != run->source->outputs)
		fail("the counts", counts.records);
	for (size_t k = 0; k < counts.codes; k++) {
		klog_reject reject;
		if (klog_reject_at(batches, k, &reject) || reject.code <= last || !reject.records)
			fail("a code", k);
		last = reject.code;
		rejected += reject.records;
	}
	if (rejected != run->rejected)
		fail("the rejected records", rejected);
}

/* Transforms the batches once more, without memory: the handle has what it had, or the same anew. */
static void transform_without_memory(const struct input *it, klog_handle *program, klog_handle *batches)
{
	klog_stop stop;
	klog_handle before = *batches;
	refuse_memory_after(it->program.refused, it->program.refuses_all);
	uint32_t fault = klog_transform(program, &it->source, it->bytes, it->length, batches, &stop);
	is_refused("a transform without memory", fault, before, *batches);
}

/* Transforms the batches within a limit, which is passed where all outputs' batches have more bytes. */
static void transform_within(const struct input *it, klog_handle *program, size_t total, size_t limit)
{
	klog_stop stop = {MARK, MARK, MARK};
	klog_handle batches = KLOG_NOTHING;
	uint32_t fault = klog_transform_within(program, &it->source, it->bytes, it->length, limit, &batches, &stop);
	if (fault != (limit < total ? KLOG_LIMIT : KLOG_OK) || (fault == 0) != batches.full)
		fail("a transform within a limit", fault);
	struct input before = *it;
	struct plain_batch end;
	size_t count;
	before.length = fault ? stop.byte : 0;
	if (fault && (stop.byte > it->length || whole_batches(&before, &count, &end) != stop.byte || count != stop.batch))
		fail("where a limit was passed", stop.byte);
	done.limits += fault != 0;
	klog_free(&batches);
}

static void compare(struct input *it, klog_handle *program)
{
	klog_handle batches = KLOG_NOTHING;
	size_t total = 0;
	if (!transform(it, program, &batches))
		return;
	struct single *run = calloc(1, sizeof *run);
	if (!run)
		fail("calloc", 0);
	run->program = program;
	run->source = &it->source;
	size_t batch_count = run_each(run, it->bytes, it->length);
	done.records += run->records;
	compare_counts(&batches, run, batch_count);
	for (size_t k = 0; k < it->source.outputs; k++)
		total += compare_output(&batches, k, &run->rows[k]);
	transform_without_memory(it, program, &batches);
	compare_counts(&batches, run, batch_count);
	transform_within(it, program, total, total);
	transform_within(it, program, total, total - (total != 0));
	transform_within(it, program, total, total / 2);
	free_single(run);
	klog_free(&batches);
}

int LLVMFuzzerTestOneInput(const uint8_t *data, size_t size)
{
	if (size < HEAD)
		return 0;
	done.inputs++;
	struct input it = input_of(data, size);
	klog_handle program = KLOG_NOTHING;
	bool is_accepted = load(&it.program, &program);
	if (it.explains && is_known_table(it.program.table))
		explain(&it.program, is_accepted, it.explains_alone);
	/* A program is its own: nothing reads the image again. */
	if (it.program.length)
		memset(it.program.bytes, 0xa5, it.program.length);
	if (is_accepted)
		compare(&it, &program);
	klog_free(&program);
	free(it.program.bytes);
	free(it.bytes);
	return 0;
}
