/* Stands in for klog's library in a member (examples/kafka): each record is forwarded to output 0, one by itself without
 * headers, at no cost. kafka_scaling.py builds a member with it, to tell what of a member's time is klog's. */
#include <klog_engine.h>
#include <string.h>

static _Thread_local klog_record given;
static _Thread_local const uint8_t *batch;
static _Thread_local size_t batch_length;

uint32_t klog_load(const uint8_t *image, size_t length, uint32_t table, klog_handle *program, size_t *place)
{
	(void)image, (void)length, (void)table, (void)program, (void)place;
	return KLOG_OK;
}

uint32_t klog_fault_text(uint32_t fault, size_t place, char *buffer, size_t room, size_t *length)
{
	(void)fault, (void)place, (void)buffer, (void)room;
	*length = 0;
	return KLOG_OK;
}

uint32_t klog_share(const klog_handle *program, klog_handle *other)
{
	(void)program, (void)other;
	return KLOG_OK;
}

void klog_free(klog_handle *handle)
{
	(void)handle;
}

uint32_t klog_add_header(klog_handle *headers, const uint8_t *key, size_t key_length, const uint8_t *value,
			 size_t value_length)
{
	(void)headers, (void)key, (void)key_length, (void)value, (void)value_length;
	return KLOG_OK;
}

uint32_t klog_run(const klog_handle *program, const klog_record *record, klog_handle *outcome)
{
	(void)program, (void)outcome;
	given = *record;
	return KLOG_OK;
}

uint32_t klog_outcome(const klog_handle *outcome, uint64_t *code, size_t *count)
{
	(void)outcome;
	*code = 0;
	*count = 1;
	return KLOG_OK;
}

uint32_t klog_emission_at(const klog_handle *outcome, size_t number, klog_emission *emission)
{
	(void)outcome, (void)number;
	uint32_t nulls = (given.key ? 0 : KLOG_NULL_KEY) | (given.value ? 0 : KLOG_NULL_VALUE);
	*emission = (klog_emission){0, given.key_length, given.value_length, nulls, 0};
	return KLOG_OK;
}

uint32_t klog_emission_key(const klog_handle *outcome, size_t number, uint8_t *buffer, size_t room)
{
	(void)outcome, (void)number, (void)room;
	if (given.key)
		memcpy(buffer, given.key, given.key_length);
	return KLOG_OK;
}

uint32_t klog_emission_value(const klog_handle *outcome, size_t number, uint8_t *buffer, size_t room)
{
	(void)outcome, (void)number, (void)room;
	if (given.value)
		memcpy(buffer, given.value, given.value_length);
	return KLOG_OK;
}

uint32_t klog_emission_header(const klog_handle *outcome, size_t number, size_t at, klog_header *header)
{
	(void)outcome, (void)number, (void)at, (void)header;
	return KLOG_RANGE;
}

uint32_t klog_emission_header_key(const klog_handle *outcome, size_t number, size_t at, uint8_t *buffer, size_t room)
{
	(void)outcome, (void)number, (void)at, (void)buffer, (void)room;
	return KLOG_RANGE;
}

uint32_t klog_emission_header_value(const klog_handle *outcome, size_t number, size_t at, uint8_t *buffer, size_t room)
{
	(void)outcome, (void)number, (void)at, (void)buffer, (void)room;
	return KLOG_RANGE;
}

uint32_t klog_transform(const klog_handle *program, const klog_source *source, const uint8_t *bytes, size_t length,
			klog_handle *batches, klog_stop *stop)
{
	(void)program, (void)source, (void)batches, (void)stop;
	batch = bytes;
	batch_length = length;
	return KLOG_OK;
}

/* How many records the batch says that it has. */
static uint32_t batch_records(void)
{
	return (uint32_t)batch[57] << 24 | (uint32_t)batch[58] << 16 | (uint32_t)batch[59] << 8 | batch[60];
}

uint32_t klog_counts_of(const klog_handle *batches, klog_counts *counts)
{
	(void)batches;
	*counts = (klog_counts){1, batch_records(), batch_records(), 0, 1};
	return KLOG_OK;
}

uint32_t klog_reject_at(const klog_handle *batches, size_t number, klog_reject *reject)
{
	(void)batches, (void)number, (void)reject;
	return KLOG_RANGE;
}

uint32_t klog_output_at(const klog_handle *batches, size_t number, klog_output *output)
{
	(void)batches;
	*output = number ? (klog_output){0, 0, 0} : (klog_output){batch_records(), batch_length, 1};
	return KLOG_OK;
}

uint32_t klog_output_batches(const klog_handle *batches, size_t number, uint8_t *buffer, size_t room)
{
	(void)batches, (void)number, (void)room;
	memcpy(buffer, batch, batch_length);
	return KLOG_OK;
}
