/* What C calls: each function looks at its pointers, and calls the proved function of the same name, which stands
 * in crates/klog_c and may be given no null pointer. That function takes what a handle holds out of it, and puts it
 * back: so one that reads gets a copy of the handle, and the caller's is not written. No proof covers this file. */
#include "klog_engine.h"

#include <stdbool.h>
#include <string.h>

/* As `Asked` of crates/klog_c. */
struct asked {
	uint64_t offset;
	uint64_t timestamp;
	size_t partition;
	size_t outputs;
	uint32_t nulls;
};

/* As `Source` of crates/klog_c. */
struct source {
	uint64_t offset;
	size_t partition;
	size_t outputs;
	uint64_t limit;
};

uint32_t klog_c_load(const uint8_t *bytes, size_t length, uint32_t table, klog_handle *program, size_t *place);
uint32_t klog_c_compile(const uint8_t *text, size_t length, uint8_t *buffer, size_t room, size_t *written,
			klog_spot *spot);
uint32_t klog_c_fault_text(uint32_t fault, size_t place, uint8_t *buffer, size_t room, size_t *length);
uint32_t klog_c_share(klog_handle *program, klog_handle *other);
uint32_t klog_c_add_header(klog_handle *headers, const uint8_t *key, size_t key_length, const uint8_t *value,
			   size_t value_length, bool is_value_null);
uint32_t klog_c_run(klog_handle *program, const struct asked *asked, const uint8_t *key, size_t key_length,
		    const uint8_t *value, size_t value_length, klog_handle *headers, klog_handle *outcome);
uint32_t klog_c_transform(klog_handle *program, const struct source *source, const uint8_t *bytes, size_t length,
			  klog_handle *batches, klog_stop *stop);
uint32_t klog_c_counts(klog_handle *batches, klog_counts *counts);
uint32_t klog_c_reject(klog_handle *batches, size_t number, klog_reject *reject);
uint32_t klog_c_output(klog_handle *batches, size_t number, klog_output *output);
uint32_t klog_c_output_batches(klog_handle *batches, size_t number, uint8_t *buffer, size_t room);
uint32_t klog_c_outcome(klog_handle *outcome, uint64_t *code, size_t *count);
uint32_t klog_c_emission(klog_handle *outcome, size_t number, klog_emission *emission);
uint32_t klog_c_emission_key(klog_handle *outcome, size_t number, uint8_t *buffer, size_t room);
uint32_t klog_c_emission_value(klog_handle *outcome, size_t number, uint8_t *buffer, size_t room);
uint32_t klog_c_emission_header(klog_handle *outcome, size_t number, size_t at, klog_header *header);
uint32_t klog_c_emission_header_key(klog_handle *outcome, size_t number, size_t at, uint8_t *buffer, size_t room);
uint32_t klog_c_emission_header_value(klog_handle *outcome, size_t number, size_t at, uint8_t *buffer, size_t room);
uint32_t klog_c_explain(const uint8_t *bytes, size_t length, uint32_t table, bool is_refused_alone,
			klog_handle *text);
uint32_t klog_c_text(klog_handle *text, uint8_t *buffer, size_t room, size_t *length);
void klog_c_free(klog_handle *handle);

/* The longest image: 16,384 slots of 8 bytes. */
static const size_t longest_image = 131072;

/* The longest file that is explained. */
static const size_t longest_file = 1048576;

/* The fault I1. */
static const uint32_t size_fault = 101;

/* No block of memory is longer. */
static const size_t longest_buffer = PTRDIFF_MAX;

/* What a slice of no bytes points to. */
static uint8_t no_bytes[1];

/* Neither filled by the library nor zeros. */
static bool is_foreign(const klog_handle *handle)
{
	return handle->full > 1 || (handle->full == 1 && !handle->at);
}

/* The first fault of a handle that is read and of what is told of it, or KLOG_OK. */
static uint32_t reading_fault(const klog_handle *handle, const void *told)
{
	if (!handle || !told)
		return KLOG_NULL;
	return is_foreign(handle) ? KLOG_KIND : KLOG_OK;
}

static bool is_table(uint32_t table)
{
	return table == KLOG_TABLE_OWN || table == KLOG_TABLE_ONE || table == KLOG_TABLE_TWO;
}

/* Bytes that begin as a program file, as those of no image do. */
static bool is_program_file(const uint8_t *bytes, size_t length)
{
	static const uint8_t mark[] = {'K', 'L', 'O', 'G'};
	return length >= sizeof mark && !memcmp(bytes, mark, sizeof mark);
}

static bool is_no_buffer(const void *bytes, size_t length)
{
	return !bytes && length != 0;
}

/* The first fault of a buffer, or KLOG_OK. */
static uint32_t buffer_fault(const void *buffer, size_t room)
{
	if (is_no_buffer(buffer, room))
		return KLOG_NULL;
	return room > longest_buffer ? KLOG_RANGE : KLOG_OK;
}

uint32_t klog_load(const uint8_t *bytes, size_t length, uint32_t table, klog_handle *program, size_t *place)
{
	if (!program || !place || is_no_buffer(bytes, length))
		return KLOG_NULL;
	if (is_foreign(program))
		return KLOG_KIND;
	if (!is_table(table))
		return KLOG_RANGE;
	if (length > longest_buffer || (length > longest_image && !is_program_file(bytes, length))) {
		*place = 0;
		return size_fault;
	}
	return klog_c_load(bytes ? bytes : no_bytes, length, table, program, place);
}

uint32_t klog_compile(const uint8_t *text, size_t length, uint8_t *buffer, size_t room, size_t *written, klog_spot *spot)
{
	uint32_t number = !written || !spot || is_no_buffer(text, length) ? KLOG_NULL : buffer_fault(buffer, room);
	if (number)
		return number;
	if (length > longest_buffer)
		return KLOG_RANGE;
	return klog_c_compile(text ? text : no_bytes, length, buffer ? buffer : no_bytes, room, written, spot);
}

uint32_t klog_fault_text(uint32_t fault, size_t place, char *buffer, size_t room, size_t *length)
{
	uint32_t number = length ? buffer_fault(buffer, room) : KLOG_NULL;
	if (number)
		return number;
	return klog_c_fault_text(fault, place, buffer ? (uint8_t *)buffer : no_bytes, room, length);
}

uint32_t klog_share(const klog_handle *program, klog_handle *other)
{
	if (!program || !other || program == other)
		return KLOG_NULL;
	if (is_foreign(program) || is_foreign(other))
		return KLOG_KIND;
	klog_handle from = *program;
	return klog_c_share(&from, other);
}

uint32_t klog_transform(const klog_handle *program, const klog_source *source, const uint8_t *bytes, size_t length,
			klog_handle *batches, klog_stop *stop)
{
	return klog_transform_within(program, source, bytes, length, UINT64_MAX, batches, stop);
}

uint32_t klog_transform_within(const klog_handle *program, const klog_source *source, const uint8_t *bytes,
			       size_t length, uint64_t limit, klog_handle *batches, klog_stop *stop)
{
	if (!program || !source || !batches || !stop || program == batches || is_no_buffer(bytes, length))
		return KLOG_NULL;
	if (is_foreign(program) || is_foreign(batches))
		return KLOG_KIND;
	if (length > longest_buffer)
		return KLOG_RANGE;
	struct source given = {source->offset, source->partition, source->outputs, limit};
	klog_handle from = *program;
	return klog_c_transform(&from, &given, bytes ? bytes : no_bytes, length, batches, stop);
}

uint32_t klog_counts_of(const klog_handle *batches, klog_counts *counts)
{
	uint32_t fault = reading_fault(batches, counts);
	if (fault)
		return fault;
	klog_handle from = *batches;
	return klog_c_counts(&from, counts);
}

uint32_t klog_reject_at(const klog_handle *batches, size_t number, klog_reject *reject)
{
	uint32_t fault = reading_fault(batches, reject);
	if (fault)
		return fault;
	klog_handle from = *batches;
	return klog_c_reject(&from, number, reject);
}

uint32_t klog_output_at(const klog_handle *batches, size_t number, klog_output *output)
{
	uint32_t fault = reading_fault(batches, output);
	if (fault)
		return fault;
	klog_handle from = *batches;
	return klog_c_output(&from, number, output);
}

uint32_t klog_add_header(klog_handle *headers, const uint8_t *key, size_t key_length, const uint8_t *value,
			 size_t value_length)
{
	if (!headers || is_no_buffer(key, key_length) || is_no_buffer(value, value_length))
		return KLOG_NULL;
	if (is_foreign(headers))
		return KLOG_KIND;
	if (key_length > longest_buffer || value_length > longest_buffer)
		return KLOG_LENGTH;
	return klog_c_add_header(headers, key ? key : no_bytes, key_length, value ? value : no_bytes, value_length, !value);
}

uint32_t klog_run(const klog_handle *program, const klog_record *record, klog_handle *outcome)
{
	static const klog_handle none = KLOG_NOTHING;
	if (!program || !record || !outcome || program == outcome)
		return KLOG_NULL;
	if (is_no_buffer(record->key, record->key_length) || is_no_buffer(record->value, record->value_length))
		return KLOG_NULL;
	const klog_handle *headers = record->headers ? record->headers : &none;
	if (headers == program || headers == outcome)
		return KLOG_NULL;
	if (is_foreign(program) || is_foreign(outcome) || is_foreign(headers))
		return KLOG_KIND;
	if (record->key_length > longest_buffer || record->value_length > longest_buffer)
		return KLOG_LENGTH;
	struct asked asked = {
		.offset = record->offset,
		.timestamp = record->timestamp,
		.partition = record->partition,
		.outputs = record->outputs,
		.nulls = (record->key ? 0u : KLOG_NULL_KEY) + (record->value ? 0u : KLOG_NULL_VALUE),
	};
	klog_handle from = *program, with = *headers;
	return klog_c_run(&from, &asked, record->key ? record->key : no_bytes, record->key_length,
			  record->value ? record->value : no_bytes, record->value_length, &with, outcome);
}

uint32_t klog_outcome(const klog_handle *outcome, uint64_t *code, size_t *count)
{
	uint32_t fault = code ? reading_fault(outcome, count) : KLOG_NULL;
	if (fault)
		return fault;
	klog_handle from = *outcome;
	return klog_c_outcome(&from, code, count);
}

uint32_t klog_emission_at(const klog_handle *outcome, size_t number, klog_emission *emission)
{
	uint32_t fault = reading_fault(outcome, emission);
	if (fault)
		return fault;
	klog_handle from = *outcome;
	return klog_c_emission(&from, number, emission);
}

/* The first fault of a handle and a buffer, or KLOG_OK. */
static uint32_t copy_fault(const klog_handle *handle, const void *buffer, size_t room)
{
	if (!handle || is_no_buffer(buffer, room))
		return KLOG_NULL;
	return is_foreign(handle) ? KLOG_KIND : buffer_fault(buffer, room);
}

uint32_t klog_emission_key(const klog_handle *outcome, size_t number, uint8_t *buffer, size_t room)
{
	uint32_t fault = copy_fault(outcome, buffer, room);
	if (fault)
		return fault;
	klog_handle from = *outcome;
	return klog_c_emission_key(&from, number, buffer ? buffer : no_bytes, room);
}

uint32_t klog_emission_value(const klog_handle *outcome, size_t number, uint8_t *buffer, size_t room)
{
	uint32_t fault = copy_fault(outcome, buffer, room);
	if (fault)
		return fault;
	klog_handle from = *outcome;
	return klog_c_emission_value(&from, number, buffer ? buffer : no_bytes, room);
}

uint32_t klog_emission_header(const klog_handle *outcome, size_t number, size_t at, klog_header *header)
{
	uint32_t fault = reading_fault(outcome, header);
	if (fault)
		return fault;
	klog_handle from = *outcome;
	return klog_c_emission_header(&from, number, at, header);
}

uint32_t klog_emission_header_key(const klog_handle *outcome, size_t number, size_t at, uint8_t *buffer, size_t room)
{
	uint32_t fault = copy_fault(outcome, buffer, room);
	if (fault)
		return fault;
	klog_handle from = *outcome;
	return klog_c_emission_header_key(&from, number, at, buffer ? buffer : no_bytes, room);
}

uint32_t klog_emission_header_value(const klog_handle *outcome, size_t number, size_t at, uint8_t *buffer, size_t room)
{
	uint32_t fault = copy_fault(outcome, buffer, room);
	if (fault)
		return fault;
	klog_handle from = *outcome;
	return klog_c_emission_header_value(&from, number, at, buffer ? buffer : no_bytes, room);
}

uint32_t klog_output_batches(const klog_handle *batches, size_t number, uint8_t *buffer, size_t room)
{
	uint32_t fault = copy_fault(batches, buffer, room);
	if (fault)
		return fault;
	klog_handle from = *batches;
	return klog_c_output_batches(&from, number, buffer ? buffer : no_bytes, room);
}

uint32_t klog_explain(const uint8_t *bytes, size_t length, uint32_t table, int is_refused_alone, klog_handle *text)
{
	if (!text || is_no_buffer(bytes, length))
		return KLOG_NULL;
	if (is_foreign(text))
		return KLOG_KIND;
	if (length > longest_file)
		return KLOG_RANGE;
	return klog_c_explain(bytes ? bytes : no_bytes, length, table, is_refused_alone != 0, text);
}

uint32_t klog_text(const klog_handle *text, char *buffer, size_t room, size_t *length)
{
	uint32_t fault = length ? copy_fault(text, buffer, room) : KLOG_NULL;
	if (fault)
		return fault;
	klog_handle from = *text;
	return klog_c_text(&from, buffer ? (uint8_t *)buffer : no_bytes, room, length);
}

uint32_t klog_version(void)
{
	return KLOG_VERSION;
}

void klog_free(klog_handle *handle)
{
	if (handle && !is_foreign(handle))
		klog_c_free(handle);
}
