/* What a member does with many records of a partition at once: they are spelled as a record batch, run by one call, and the
 * batches of its outputs are read back (docs/reference/wire.md). Where single records must be told apart, run_on has them. */
#include "member.h"
#include <stdlib.h>
#include <string.h>

enum {
	LEAST_RECORDS = 8, /* fewer are run one by one */
	MOST_RECORDS = 1000,
	HEADER = 61,    /* bytes of a batch before its records */
	COVERED = 21,   /* where what its checksum covers begins */
	VARINTS = 32,   /* at most what a record has beside its parts */
	LENGTH = 12     /* bytes up to the end of a batch's length */
};

/* A record batch that is being written. */
struct batch {
	uint8_t *at;
	const uint8_t *end;
	int64_t first_time, last_time;
	size_t count;
};

/* A record, and how many bytes its headers and all of it take. */
struct spelled {
	const rd_kafka_message_t *message;
	rd_kafka_headers_t *headers;
	int64_t time;
	size_t header_count, header_length, length;
};

/* What is left of an output's batches: the one that is read ends at `batch_end`. */
struct rows {
	const uint8_t *at, *end, *batch_end;
	int64_t first_time;
};

/* A row, its headers as the batch has them, and at most how long its message is. */
struct row {
	struct output output;
	const uint8_t *headers;
	size_t header_count, size;
};

/* ---- numbers */

static uint64_t folded(int64_t number)
{
	return (uint64_t)number << 1 ^ (uint64_t)(number >> 63);
}

static size_t varint_length(int64_t number)
{
	return (size_t)(70 - __builtin_clzll(folded(number) | 1)) / 7;
}

static uint8_t *put_varint(uint8_t *to, int64_t number)
{
	uint64_t rest = folded(number);
	for (; rest > 127; rest >>= 7)
		*to++ = (uint8_t)(rest | 128);
	*to++ = (uint8_t)rest;
	return to;
}

static int64_t take_varint(const uint8_t **from)
{
	uint64_t sum = 0, byte = 128;
	for (unsigned k = 0; byte > 127; k += 7) {
		byte = *(*from)++;
		sum |= (byte & 127) << k;
	}
	return (int64_t)(sum >> 1) ^ -(int64_t)(sum & 1);
}

static uint8_t *put_number(uint8_t *to, size_t bytes, uint64_t number)
{
	for (size_t k = bytes; k; k--)
		*to++ = (uint8_t)(number >> 8 * (k - 1));
	return to;
}

static uint64_t number_at(const uint8_t *from, size_t bytes)
{
	uint64_t sum = 0;
	for (size_t k = 0; k < bytes; k++)
		sum = sum << 8 | from[k];
	return sum;
}

/* CRC-32C by instructions that processors have since 2008. */
__attribute__((target("sse4.2"))) static uint32_t checksum(const uint8_t *bytes, size_t length)
{
	uint64_t sum = UINT32_MAX, eight;
	for (; length >= sizeof eight; length -= sizeof eight, bytes += sizeof eight) {
		memcpy(&eight, bytes, sizeof eight);
		sum = __builtin_ia32_crc32di(sum, eight);
	}
	for (; length; length--)
		sum = __builtin_ia32_crc32qi((uint32_t)sum, *bytes++);
	return ~(uint32_t)sum;
}

/* ---- records to a batch */

static size_t part_length(const void *part, size_t length)
{
	return part ? varint_length((int64_t)length) + length : 1;
}

static uint8_t *put_part(uint8_t *to, const void *part, size_t length)
{
	to = put_varint(to, part ? (int64_t)length : -1);
	if (length)
		memcpy(to, part, length);
	return to + length;
}

/* Looks at the headers of a record; false where klog takes none such. */
static bool measure_headers(struct spelled *record)
{
	const char *name;
	const void *value;
	size_t length;
	if (rd_kafka_message_headers(record->message, &record->headers))
		return true;
	for (; !rd_kafka_header_get_all(record->headers, record->header_count, &name, &value, &length); record->header_count++) {
		size_t name_length = strlen(name);
		if (record->header_count == KLOG_HEADERS || name_length > LONGEST_HEADER_KEY || length > LONGEST_HEADER_VALUE)
			return false;
		record->header_length += part_length(name, name_length) + part_length(value, length);
	}
	return true;
}

/* Looks at a record; false where klog doesn't take it or the batch has no room for it. What else may be wrong with it the
 * batch's fault tells. */
static bool measure(const struct batch *batch, const rd_kafka_message_t *message, struct spelled *record)
{
	*record = (struct spelled){.message = message, .time = rd_kafka_message_timestamp(message, NULL)};
	if (record->time < 0 || message->key_len > MOST_KEY || message->len > MOST_VALUE || !measure_headers(record))
		return false;
	size_t length = part_length(message->key, message->key_len) + part_length(message->payload, message->len);
	int64_t delta = record->time - (batch->count ? batch->first_time : record->time);
	record->length = 1 + varint_length(delta) + varint_length((int64_t)batch->count) + length +
			 varint_length((int64_t)record->header_count) + record->header_length;
	return record->length + VARINTS <= (size_t)(batch->end - batch->at);
}

static void put_record(struct batch *batch, const struct spelled *record)
{
	const char *name;
	const void *value;
	size_t length;
	if (!batch->count)
		batch->first_time = batch->last_time = record->time;
	if (record->time > batch->last_time)
		batch->last_time = record->time;
	uint8_t *to = put_varint(batch->at, (int64_t)record->length);
	*to++ = 0;
	to = put_varint(to, record->time - batch->first_time);
	to = put_varint(to, (int64_t)batch->count++);
	to = put_part(to, record->message->key, record->message->key_len);
	to = put_part(to, record->message->payload, record->message->len);
	to = put_varint(to, (int64_t)record->header_count);
	for (size_t k = 0; k < record->header_count; k++) {
		rd_kafka_header_get_all(record->headers, k, &name, &value, &length);
		to = put_part(to, name, strlen(name));
		to = put_part(to, value, length);
	}
	batch->at = to;
}

/* Writes what stands before a batch's records. Its length. */
static size_t finish(uint8_t *bytes, const struct batch *batch)
{
	size_t length = (size_t)(batch->at - bytes);
	put_number(bytes, 8, 0);
	put_number(bytes + 8, 4, length - LENGTH);
	put_number(bytes + LENGTH, 4, UINT32_MAX);
	bytes[16] = 2;
	uint8_t *to = put_number(bytes + COVERED, 2, 0);
	to = put_number(to, 4, batch->count - 1);
	to = put_number(to, 8, (uint64_t)batch->first_time);
	to = put_number(to, 8, (uint64_t)batch->last_time);
	to = put_number(to, 8, UINT64_MAX);
	to = put_number(to, 2, UINT16_MAX);
	to = put_number(to, 4, UINT32_MAX);
	put_number(to, 4, batch->count);
	put_number(bytes + COVERED - 4, 4, checksum(bytes + COVERED, length - COVERED));
	return length;
}

/* Spells records of a partition, from one on, whose offsets follow each other. The number of the next one goes to `*next`. */
static struct batch spell(struct worker *worker, uint32_t first, uint32_t *next)
{
	struct batch batch = {.at = worker->batch + HEADER, .end = worker->batch + LONGEST_BATCH};
	struct spelled record;
	const uint32_t most = __builtin_cpu_supports("sse4.2") ? MOST_RECORDS : 0;
	int64_t offset = worker->polled[first]->offset;
	for (*next = first; *next != NONE && batch.count < most; *next = worker->following[*next]) {
		const rd_kafka_message_t *message = worker->polled[*next];
		if (message->offset != offset + (int64_t)batch.count || !measure(&batch, message, &record))
			break;
		put_record(&batch, &record);
	}
	return batch;
}

/* ---- batches to messages */

static const void *take_part(const uint8_t **from, size_t *length)
{
	int64_t told = take_varint(from);
	const uint8_t *part = told < 0 ? NULL : *from;
	*length = told < 0 ? 0 : (size_t)told;
	*from += *length;
	return part;
}

/* The next row of an output; false at the end. */
static bool take_row(struct rows *rows, struct row *row)
{
	size_t length;
	if (rows->at == rows->end)
		return false;
	if (rows->at == rows->batch_end) {
		rows->batch_end = rows->at + LENGTH + number_at(rows->at + 8, 4);
		rows->first_time = (int64_t)number_at(rows->at + 27, 8);
		rows->at += HEADER;
	}
	take_varint(&rows->at);
	rows->at++;
	row->output.timestamp = rows->first_time + take_varint(&rows->at);
	take_varint(&rows->at);
	row->output.key = take_part(&rows->at, &row->output.key_length);
	row->output.value = take_part(&rows->at, &row->output.value_length);
	row->header_count = (size_t)take_varint(&rows->at);
	row->headers = rows->at;
	row->size = FRAME + row->output.key_length + row->output.value_length;
	for (size_t k = 0; k < 2 * row->header_count; k++) {
		take_part(&rows->at, &length);
		row->size += FRAME + length;
	}
	return true;
}

/* The headers of a row in the client's form, NULL where memory runs out. */
static rd_kafka_headers_t *headers_of(const struct row *row)
{
	const uint8_t *at = row->headers;
	rd_kafka_headers_t *headers = rd_kafka_headers_new(row->header_count);
	for (size_t k = 0; k < row->header_count && headers; k++) {
		size_t name_length, length;
		const char *name = take_part(&at, &name_length);
		const void *value = take_part(&at, &length);
		if (rd_kafka_header_add(headers, name, (ssize_t)name_length, value, (ssize_t)length)) {
			rd_kafka_headers_destroy(headers);
			return NULL;
		}
	}
	return headers;
}

/* Whether the client takes each row. */
static bool are_short(const struct worker *worker, struct rows rows)
{
	struct row row;
	if ((size_t)(rows.end - rows.at) <= worker->longest_message)
		return true;
	while (take_row(&rows, &row))
		if (row.size > worker->longest_message)
			return false;
	return true;
}

/* Produces the rows of an output, for the partition that the records came from. */
static next_step produce_rows(struct worker *worker, struct rows rows, rd_kafka_topic_t *topic, int32_t partition)
{
	struct row row = {.output = {.topic = topic, .partition = partition}};
	while (take_row(&rows, &row)) {
		row.output.headers = row.header_count ? headers_of(&row) : NULL;
		if (row.header_count && !row.output.headers)
			return stop(worker, END, "memory ran out");
		if (!produce(worker, &row.output))
			return worker->step;
	}
	return GO_ON;
}

/* Copies the batches of all outputs; whether that could be done, and each row is short enough for the client. */
static bool take_outputs(struct worker *worker, struct rows *outputs)
{
	klog_output told[MOST_OUTPUTS];
	size_t count = worker->options->output_count, length = 0;
	for (size_t k = 0; k < count; k++) {
		if (klog_output_at(&worker->batches, k, &told[k]))
			return false;
		length += told[k].length;
	}
	if (length > worker->rows_room) {
		uint8_t *rows = realloc(worker->rows, length);
		if (!rows)
			return false;
		worker->rows = rows;
		worker->rows_room = length;
	}
	length = 0;
	for (size_t k = 0; k < count; k++) {
		uint8_t *at = worker->rows + length;
		if (told[k].length && klog_output_batches(&worker->batches, k, at, told[k].length))
			return false;
		length += told[k].length;
		outputs[k] = (struct rows){.at = at, .end = at + told[k].length, .batch_end = at};
		if (!are_short(worker, outputs[k]))
			return false;
	}
	return true;
}

/* ---- the whole way */

/* Counts what became of the records; false where one of them becomes a dead letter. */
static bool count_records(struct worker *worker)
{
	klog_counts counts;
	klog_reject reject;
	if (klog_counts_of(&worker->batches, &counts))
		return false;
	for (size_t k = 0; k < counts.codes; k++)
		if (klog_reject_at(&worker->batches, k, &reject) || is_dead_code(worker->options, reject.code))
			return false;
	for (size_t k = 0; k < counts.codes && !klog_reject_at(&worker->batches, k, &reject); k++)
		count_code(&worker->counts, reject.code, reject.records);
	worker->counts.records += counts.records;
	for (size_t k = 0; k < worker->options->output_count; k++) {
		klog_output told;
		if (!klog_output_at(&worker->batches, k, &told))
			worker->counts.outputs += told.rows;
	}
	return true;
}

/* Runs the program on a batch of records; false, with nothing produced or counted, where single records must be looked at. */
static bool run_batch(struct worker *worker, const struct batch *batch, const rd_kafka_message_t *first, struct rows *outputs)
{
	klog_source source = {.offset = (uint64_t)first->offset, .partition = (size_t)first->partition % PARTITIONS,
			      .outputs = worker->options->output_count};
	klog_stop stopped;
	return !klog_transform(&worker->program, &source, worker->batch, finish(worker->batch, batch), &worker->batches,
			       &stopped) &&
	       take_outputs(worker, outputs) && count_records(worker);
}

static next_step produce_all(struct worker *worker, const rd_kafka_message_t *first, const struct rows *outputs)
{
	next_step step = GO_ON;
	for (size_t k = 0; k < worker->options->output_count && step == GO_ON; k++)
		step = produce_rows(worker, outputs[k], worker->outputs[k], first->partition);
	return step;
}

/* Runs the program on records of a partition one by one, up to another one, which is the next. */
static next_step run_each(struct worker *worker, uint32_t first, uint32_t next)
{
	next_step step = GO_ON;
	for (uint32_t k = first; k != next && step == GO_ON; k = worker->following[k])
		step = run_on(worker, worker->polled[k]);
	return step;
}

next_step run_on_batch(struct worker *worker, uint32_t first, uint32_t *next)
{
	struct rows outputs[MOST_OUTPUTS];
	const rd_kafka_message_t *message = worker->polled[first];
	struct batch batch = spell(worker, first, next);
	next_step step;
	if (batch.count >= LEAST_RECORDS && run_batch(worker, &batch, message, outputs)) {
		step = produce_all(worker, message, outputs);
		worker->places[message->partition].next = message->offset + (int64_t)batch.count;
	} else {
		if (*next == first)
			*next = worker->following[first];
		step = run_each(worker, first, *next);
	}
	for (uint32_t k = first; k != *next; k = worker->following[k]) {
		rd_kafka_message_destroy(worker->polled[k]);
		worker->polled[k] = NULL;
	}
	return step;
}
