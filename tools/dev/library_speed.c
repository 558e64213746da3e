/* Times the C library: record batches of a file through a program, each by a call of its own with a copy of each
 * output's batches; or one record by calls of its own. library_speed.py builds and runs it.
 *	library_speed IMAGE FILE OUTPUTS SECONDS
 *	library_speed IMAGE one OUTPUTS SECONDS */
#include <klog_engine.h>
#include <stdio.h>
#include <stdlib.h>
#include <string.h>
#include <time.h>

enum { LONGEST_IMAGE = 131072, FRONT = 12 };

static uint8_t *bytes, *copied;
static size_t length;
static klog_handle program, batches, outcome;

static void check(const char *call, uint32_t fault)
{
	if (fault) {
		fprintf(stderr, "%s: %u\n", call, (unsigned)fault);
		exit(1);
	}
}

static size_t read_file(const char *name, uint8_t **to)
{
	FILE *file = fopen(name, "rb");
	if (!file || fseek(file, 0, SEEK_END)) {
		perror(name);
		exit(1);
	}
	size_t size = (size_t)ftell(file);
	rewind(file);
	*to = malloc(size + 1);
	if (!*to || fread(*to, 1, size, file) != size)
		exit(1);
	fclose(file);
	return size;
}

static double processor_seconds(void)
{
	struct timespec now;
	clock_gettime(CLOCK_PROCESS_CPUTIME_ID, &now);
	return (double)now.tv_sec + (double)now.tv_nsec / 1e9;
}

static size_t batch_size(const uint8_t *batch)
{
	return FRONT + ((size_t)batch[8] << 24 | (size_t)batch[9] << 16 | (size_t)batch[10] << 8 | batch[11]);
}

static void copy_outputs(size_t outputs)
{
	klog_output told;
	for (size_t k = 0; k < outputs; k++) {
		check("output_at", klog_output_at(&batches, k, &told));
		check("output_batches", klog_output_batches(&batches, k, copied, told.length));
	}
}

/* All batches of the file once; how many records they have. */
static uint64_t transform_file(size_t outputs)
{
	klog_source source = {0, 0, outputs};
	klog_stop stop;
	klog_counts counts;
	for (size_t at = 0; at < length; at += batch_size(bytes + at)) {
		check("transform", klog_transform(&program, &source, bytes + at, batch_size(bytes + at), &batches, &stop));
		check("counts_of", klog_counts_of(&batches, &counts));
		copy_outputs(outputs);
		source.offset += counts.records;
	}
	return source.offset;
}

/* A record of 64 bytes through the program, and its emissions' values. */
static void run_one(size_t outputs, uint64_t offset)
{
	static const uint8_t value[64] = "A";
	klog_record record = {.value = value, .value_length = sizeof value, .offset = offset, .outputs = outputs};
	uint64_t code;
	size_t count;
	klog_emission emission;
	check("run", klog_run(&program, &record, &outcome));
	check("outcome", klog_outcome(&outcome, &code, &count));
	for (size_t k = 0; k < count; k++) {
		check("emission_at", klog_emission_at(&outcome, k, &emission));
		check("emission_value", klog_emission_value(&outcome, k, copied, sizeof value));
	}
}

static uint64_t run_many(size_t outputs)
{
	for (uint64_t k = 0; k < 1000; k++)
		run_one(outputs, k);
	return 1000;
}

int main(int argc, char **argv)
{
	uint8_t *image;
	size_t place;
	if (argc != 5)
		return 2;
	size_t outputs = strtoul(argv[3], NULL, 10), image_length = read_file(argv[1], &image);
	int is_one = !strcmp(argv[2], "one");
	length = is_one ? 4096 : read_file(argv[2], &bytes);
	copied = malloc(2 * length + 4096);
	check("load", klog_load(image, image_length, KLOG_TABLE_ONE, &program, &place));
	uint64_t records = 0;
	double start = processor_seconds(), end = start + strtod(argv[4], NULL);
	while (processor_seconds() < end)
		records += is_one ? run_many(outputs) : transform_file(outputs);
	printf("%.0f\n", (double)records / (processor_seconds() - start));
	klog_free(&batches);
	klog_free(&outcome);
	klog_free(&program);
	free(copied);
	free(bytes);
	free(image);
	return 0;
}
