#include "rows.h"

#include <stdlib.h>
#include <string.h>

static void put(struct rows *rows, const void *bytes, size_t length)
{
	if (length > rows->room - rows->length) {
		rows->room = 2 * rows->room + length + 64;
		rows->bytes = realloc(rows->bytes, rows->room);
		if (!rows->bytes)
			fail("realloc", rows->room);
	}
	if (length)
		memcpy(rows->bytes + rows->length, bytes, length);
	rows->length += length;
}

static void put_part(struct rows *rows, struct part part)
{
	int64_t length = part.is_null ? -1 : (int64_t)part.length;
	put(rows, &length, sizeof length);
	put(rows, part.at, part.is_null ? 0 : part.length);
}

static void put_row(struct rows *rows, int64_t timestamp, const struct plain_record *record)
{
	put(rows, &timestamp, sizeof timestamp);
	put_part(rows, record->key);
	put_part(rows, record->value);
	put(rows, &record->header_count, sizeof record->header_count);
	for (size_t k = 0; k < record->header_count; k++) {
		put_part(rows, record->headers[k].key);
		put_part(rows, record->headers[k].value);
	}
	rows->count++;
}

/* A header of an emission, in blocks of its own. */
static struct plain_header header_of(klog_handle *outcome, size_t number, size_t at)
{
	klog_header told;
	if (klog_emission_header(outcome, number, at, &told))
		fail("a header", at);
	uint8_t *key = malloc(told.key_length + 1), *value = malloc(told.value_length + 1);
	if (!key || !value || klog_emission_header_key(outcome, number, at, key, told.key_length) ||
	    klog_emission_header_value(outcome, number, at, value, told.value_length))
		fail("a header's bytes", at);
	return (struct plain_header){{key, told.key_length, false},
				     {value, told.value_length, (told.nulls & KLOG_NULL_VALUE) != 0}};
}

/* Puts an emission to the rows of its output. */
static void put_emission(struct rows *rows, size_t outputs, klog_handle *outcome, size_t number, int64_t timestamp)
{
	klog_emission told;
	struct plain_record row;
	if (klog_emission_at(outcome, number, &told) || told.output >= outputs || told.header_count > MOST_HEADERS)
		fail("an emission", number);
	uint8_t *key = malloc(told.key_length + 1), *value = malloc(told.value_length + 1);
	if (!key || !value || klog_emission_key(outcome, number, key, told.key_length) ||
	    klog_emission_value(outcome, number, value, told.value_length))
		fail("an emission's bytes", number);
	row.key = (struct part){key, told.key_length, (told.nulls & KLOG_NULL_KEY) != 0};
	row.value = (struct part){value, told.value_length, (told.nulls & KLOG_NULL_VALUE) != 0};
	row.header_count = told.header_count;
	for (size_t k = 0; k < told.header_count; k++)
		row.headers[k] = header_of(outcome, number, k);
	put_row(&rows[told.output], timestamp, &row);
	for (size_t k = 0; k < told.header_count; k++) {
		free((void *)row.headers[k].key.at);
		free((void *)row.headers[k].value.at);
	}
	free(key);
	free(value);
}

static void add_headers(klog_handle *headers, const struct plain_record *record)
{
	klog_free(headers);
	for (size_t k = 0; k < record->header_count; k++) {
		struct part key = record->headers[k].key, value = record->headers[k].value;
		if (klog_add_header(headers, key.at, key.length, value.at, value.length))
			fail("add_header", k);
	}
}

static void run_one(struct single *run, const struct plain_record *given, int64_t timestamp)
{
	klog_record record = {.key = given->key.at,
			      .key_length = given->key.length,
			      .value = given->value.at,
			      .value_length = given->value.length,
			      .offset = run->source->offset + run->records,
			      .timestamp = (uint64_t)timestamp,
			      .partition = run->source->partition,
			      .outputs = run->source->outputs,
			      .headers = &run->headers};
	uint64_t code;
	size_t count;
	add_headers(&run->headers, given);
	uint32_t fault = klog_run(run->program, &record, &run->outcome);
	if (fault || klog_outcome(&run->outcome, &code, &count) || count > (code ? 0 : KLOG_EMISSIONS))
		fail("run", fault);
	for (size_t k = 0; k < count; k++)
		put_emission(run->rows, run->source->outputs, &run->outcome, k, timestamp);
	run->kept += !code;
	run->rejected += code != 0;
	run->records++;
}

size_t run_each(struct single *run, const uint8_t *bytes, size_t length)
{
	size_t batches = 0;
	for (size_t at = 0; at < length; batches++) {
		struct plain_batch batch = read_batch(bytes + at, length - at);
		struct reader from = {bytes + at, batch.length, BATCH_HEADER};
		if (batch.fault)
			fail("a batch that was accepted", batch.fault);
		for (size_t k = 0; k < batch.count; k++) {
			struct plain_record record;
			if (!read_record(&from, (int64_t)k, &record))
				fail("a record that was accepted", k);
			run_one(run, &record, batch.base_timestamp + record.delta);
		}
		at += batch.length;
	}
	return batches;
}

void free_single(struct single *run)
{
	for (size_t k = 0; k < MOST_OUTPUTS; k++)
		free(run->rows[k].bytes);
	klog_free(&run->headers);
	klog_free(&run->outcome);
	free(run);
}

/* A batch that is not the last has no room for the first row of the next one, whose deltas may take twelve bytes more. */
static void check_full(const struct plain_batch *batch, size_t next_row)
{
	if (batch->count && batch->count < MOST_RECORDS && batch->length + next_row + 12 <= LONGEST_BATCH)
		fail("a batch with room left", batch->length);
}

struct rows rows_of(const uint8_t *bytes, const klog_output *told)
{
	struct rows rows = {0};
	struct plain_batch before = {0};
	size_t batches = 0;
	for (size_t at = 0; at < told->length; batches++) {
		struct plain_batch batch = read_batch(bytes + at, told->length - at);
		struct reader from = {bytes + at, batch.length, BATCH_HEADER};
		if (batch.fault || batch.base_offset != (int64_t)rows.count)
			fail("the batch of an output", batch.fault);
		for (size_t k = 0; k < batch.count; k++) {
			struct plain_record record;
			if (!read_record(&from, (int64_t)k, &record))
				fail("the record of an output", k);
			if (k == 0)
				check_full(&before, from.at - BATCH_HEADER);
			put_row(&rows, batch.base_timestamp + record.delta, &record);
		}
		at += batch.length;
		before = batch;
	}
	if (batches != told->batches || rows.count != told->rows)
		fail("the counts of an output", batches);
	return rows;
}
