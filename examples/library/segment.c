/* Runs a program on the record batches of a file, as a segment of a Kafka log has them, and writes the batches of each
 * output partition to a file of its own.
 *	segment IMAGE FILE OUT .. */
#include <klog_engine.h>
#include <stdio.h>
#include <stdlib.h>
#include <string.h>

enum { LONGEST_PROGRAM = 8388608, ROOM = 16 << 20, FRONT = 12, MOST_OUTPUTS = 64 };

/* The most bytes of rows that one call may make: a program that emits much ends with KLOG_LIMIT, not the memory. */
static const uint64_t most_rows = 256 << 20;

/* An output partition: its file, and the offset of its next row. */
struct output {
	FILE *file;
	uint64_t next;
};

/* What is read: where the next record and the next batch are. */
struct input {
	klog_source source;
	uint64_t batch, byte;
};

static uint8_t bytes[ROOM];

/* Prints the text of a fault, and is the program's status. */
static int print_fault(const char *call, uint32_t fault, size_t place)
{
	char text[64];
	size_t length;
	if (klog_fault_text(fault, place, text, sizeof text, &length) == KLOG_OK)
		fprintf(stderr, "%s: %.*s\n", call, (int)length, text);
	return 1;
}

static int load(const char *name, klog_handle *program)
{
	static uint8_t image[LONGEST_PROGRAM];
	FILE *file = fopen(name, "rb");
	if (!file) {
		perror(name);
		return 1;
	}
	size_t length = fread(image, 1, sizeof image, file), place = 0;
	fclose(file);
	uint32_t fault = klog_load(image, length, KLOG_TABLE_OWN, program, &place);
	return fault ? print_fault(name, fault, place) : 0;
}

/* How many bytes the batch at the front has, by its length field. */
static size_t batch_size(const uint8_t *batch)
{
	return FRONT + ((size_t)batch[8] << 24 | (size_t)batch[9] << 16 | (size_t)batch[10] << 8 | batch[11]);
}

/* How many of the bytes are whole batches. */
static size_t whole(size_t length)
{
	size_t at = 0;
	while (length - at >= FRONT && length - at >= batch_size(bytes + at))
		at += batch_size(bytes + at);
	return at;
}

/* Numbers the rows of batches from an offset on, as a broker does: the checksum of a batch does not cover its first
 * eight bytes. Each batch has its number of records at byte 57. */
static void renumber(uint8_t *batches, size_t length, uint64_t *next)
{
	for (size_t at = 0; at < length; at += batch_size(batches + at)) {
		const uint8_t *count = batches + at + 57;
		for (int k = 0; k < 8; k++)
			batches[at + k] = (uint8_t)(*next >> (56 - 8 * k));
		*next += (uint64_t)count[0] << 24 | count[1] << 16 | count[2] << 8 | count[3];
	}
}

static int write_output(const klog_handle *batches, size_t number, struct output *to)
{
	klog_output told;
	uint32_t fault = klog_output_at(batches, number, &told);
	if (fault)
		return print_fault("output", fault, 0);
	uint8_t *copied = malloc(told.length + 1);
	int is_done = copied && klog_output_batches(batches, number, copied, told.length) == KLOG_OK;
	if (is_done) {
		renumber(copied, told.length, &to->next);
		is_done = fwrite(copied, 1, told.length, to->file) == told.length;
	}
	free(copied);
	if (!is_done)
		perror("output");
	return !is_done;
}

static void print_rejects(const klog_handle *batches, size_t codes)
{
	klog_reject reject;
	for (size_t k = 0; k < codes && klog_reject_at(batches, k, &reject) == KLOG_OK; k++)
		printf("rejected by %llu: %llu\n", (unsigned long long)reject.code, (unsigned long long)reject.records);
}

/* Prints what was made of batches, and writes it. */
static int write_outputs(const klog_handle *batches, struct input *input, struct output *outputs)
{
	klog_counts counts;
	uint32_t fault = klog_counts_of(batches, &counts);
	if (fault)
		return print_fault("counts", fault, 0);
	printf("batches %zu records %llu kept %llu\n", counts.batches, (unsigned long long)counts.records,
	       (unsigned long long)counts.kept);
	print_rejects(batches, counts.codes);
	input->source.offset += counts.records;
	input->batch += counts.batches;
	for (size_t k = 0; k < input->source.outputs; k++)
		if (write_output(batches, k, &outputs[k]))
			return 1;
	return 0;
}

/* Transforms a piece of the file: whole batches, or what is left of it. A call is all or nothing, so the batches before
 * a faulty one get a call of their own. */
static int transform(const klog_handle *program, klog_handle *batches, size_t length, struct input *input,
		     struct output *outputs)
{
	klog_stop stop;
	char call[64] = "transform";
	uint32_t fault = klog_transform_within(program, &input->source, bytes, length, most_rows, batches, &stop);
	if (fault > KLOG_BATCH || fault == KLOG_FULL) {
		if (stop.byte > 0 && transform(program, batches, stop.byte, input, outputs))
			return 1;
		snprintf(call, sizeof call, "batch %llu at byte %llu", (unsigned long long)input->batch,
			 (unsigned long long)input->byte);
	}
	if (fault)
		return print_fault(call, fault, stop.record);
	input->byte += length;
	return write_outputs(batches, input, outputs);
}

static int transform_file(const klog_handle *program, const char *name, struct input *input, struct output *outputs)
{
	klog_handle batches = KLOG_NOTHING;
	FILE *file = fopen(name, "rb");
	if (!file) {
		perror(name);
		return 1;
	}
	size_t length = 0, read, used;
	int status = 0;
	while (!status && (read = fread(bytes + length, 1, ROOM - length, file)) > 0) {
		length += read;
		used = whole(length);
		status = transform(program, &batches, used ? used : length, input, outputs);
		memmove(bytes, bytes + used, length - used);
		length -= used;
	}
	if (!status && length)
		status = transform(program, &batches, length, input, outputs);
	if (ferror(file)) {
		perror(name);
		status = 1;
	}
	fclose(file);
	klog_free(&batches);
	return status;
}

int main(int argc, char **argv)
{
	static struct output outputs[MOST_OUTPUTS];
	klog_handle program = KLOG_NOTHING;
	if (argc < 4 || argc > 3 + MOST_OUTPUTS) {
		fprintf(stderr, "usage: segment IMAGE FILE OUT ..\n");
		return 2;
	}
	struct input input = {.source = {.outputs = (size_t)argc - 3}};
	int status = load(argv[1], &program);
	for (size_t k = 0; !status && k < input.source.outputs; k++) {
		outputs[k].file = fopen(argv[3 + k], "wb");
		if (!outputs[k].file) {
			perror(argv[3 + k]);
			status = 1;
		}
	}
	if (!status)
		status = transform_file(&program, argv[2], &input, outputs);
	for (size_t k = 0; k < input.source.outputs; k++)
		if (outputs[k].file && fclose(outputs[k].file))
			status = 1;
	klog_free(&program);
	return status;
}
