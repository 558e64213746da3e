/* What a member does with a record by itself. */
#include "member.h"
#include <string.h>

enum {
	TOLD_SKIPS = 10,   /* skipped records that are printed between two reports */
	DEAD_HEADERS = 4
};

/* What comes of a step with a record: it is done, memory or a client ends all, or klog can't take the record. */
typedef enum { DONE, FAILED, UNFIT } outcome;

/* Why klog can't take a record, by the fault of a call; memory that ran out is not the record's fault. */
static outcome unfit(struct worker *worker, const char *what, uint32_t fault, char *reason)
{
	char text[64];
	size_t length = 0;
	if (fault == KLOG_MEMORY) {
		stop(worker, END, "memory ran out");
		return FAILED;
	}
	if (klog_fault_text(fault, 0, text, sizeof text, &length))
		length = 0;
	snprintf(reason, TEXT, "%s%.*s", what, (int)length, text);
	return UNFIT;
}

static outcome take_headers(struct worker *worker, const rd_kafka_message_t *message, char *reason)
{
	rd_kafka_headers_t *headers;
	const char *name;
	const void *value;
	size_t size;
	klog_free(&worker->headers);
	if (rd_kafka_message_headers(message, &headers))
		return DONE;
	for (size_t k = 0; !rd_kafka_header_get_all(headers, k, &name, &value, &size); k++) {
		if (k == KLOG_HEADERS) {
			snprintf(reason, TEXT, "more than %d headers", KLOG_HEADERS);
			return UNFIT;
		}
		uint32_t fault = klog_add_header(&worker->headers, (const uint8_t *)name, strlen(name), value, size);
		if (fault) {
			char what[64];
			snprintf(what, sizeof what, "header %zu: ", k);
			return unfit(worker, what, fault, reason);
		}
	}
	return DONE;
}

/* Runs the program on a record: the code, and how many emissions there are. */
static outcome run(struct worker *worker, const rd_kafka_message_t *message, int64_t timestamp, uint64_t *code, size_t *count,
		   char *reason)
{
	if (timestamp < 0) {
		snprintf(reason, TEXT, "no timestamp");
		return UNFIT;
	}
	outcome taken = take_headers(worker, message, reason);
	if (taken != DONE)
		return taken;
	klog_record record = {
		.key = message->key, .key_length = message->key_len, .value = message->payload, .value_length = message->len,
		.offset = (uint64_t)message->offset, .timestamp = (uint64_t)timestamp,
		.partition = (size_t)message->partition % PARTITIONS, .outputs = worker->options->output_count,
		.headers = &worker->headers};
	uint32_t fault = klog_run(&worker->program, &record, &worker->outcome);
	if (!fault)
		fault = klog_outcome(&worker->outcome, code, count);
	return fault ? unfit(worker, "", fault, reason) : DONE;
}

/* Whether the client takes a message of so many bytes. */
static outcome weigh(const struct worker *worker, const char *what, size_t size, char *reason)
{
	if (size <= worker->longest_message)
		return DONE;
	snprintf(reason, TEXT, "%s has %zu bytes, and message.max.bytes is %zu", what, size, worker->longest_message);
	return UNFIT;
}

/* Whether the client takes all emissions of the outcome, before the first one is produced. */
static outcome weigh_emissions(struct worker *worker, size_t count, klog_emission *emissions, char *reason)
{
	outcome done = DONE;
	for (size_t k = 0; k < count && done == DONE; k++) {
		uint32_t fault = klog_emission_at(&worker->outcome, k, &emissions[k]);
		size_t size = FRAME + emissions[k].key_length + emissions[k].value_length;
		for (size_t at = 0; at < emissions[k].header_count && !fault; at++) {
			klog_header header;
			fault = klog_emission_header(&worker->outcome, k, at, &header);
			size += FRAME + header.key_length + header.value_length;
		}
		done = fault ? unfit(worker, "", fault, reason) : weigh(worker, "an output", size, reason);
	}
	return done;
}

bool produce(struct worker *worker, const struct output *output)
{
	rd_kafka_vu_t parts[7] = {
		{.vtype = RD_KAFKA_VTYPE_RKT, .u.rkt = output->topic},
		{.vtype = RD_KAFKA_VTYPE_PARTITION, .u.i32 = output->partition},
		{.vtype = RD_KAFKA_VTYPE_MSGFLAGS, .u.i = RD_KAFKA_MSG_F_COPY},
		{.vtype = RD_KAFKA_VTYPE_KEY, .u.mem = {(void *)output->key, output->key_length}},
		{.vtype = RD_KAFKA_VTYPE_VALUE, .u.mem = {(void *)output->value, output->value_length}}};
	size_t count = 5;
	if (output->timestamp >= 0)
		parts[count++] = (rd_kafka_vu_t){.vtype = RD_KAFKA_VTYPE_TIMESTAMP, .u.i64 = output->timestamp};
	if (output->headers)
		parts[count++] = (rd_kafka_vu_t){.vtype = RD_KAFKA_VTYPE_HEADERS, .u.headers = output->headers};
	rd_kafka_error_t *error;
	while ((error = rd_kafka_produceva(worker->producer, parts, count)) &&
	       rd_kafka_error_code(error) == RD_KAFKA_RESP_ERR__QUEUE_FULL) {
		rd_kafka_error_destroy(error);
		rd_kafka_poll(worker->producer, 1000);
	}
	if (!error)
		return true;
	if (output->headers)
		rd_kafka_headers_destroy(output->headers);
	/* The transaction has failed already; its end says why. */
	next_step step = rd_kafka_error_code(error) == RD_KAFKA_RESP_ERR__STATE ? ABORT : END;
	stop(worker, step, "produce: %s", rd_kafka_error_string(error));
	rd_kafka_error_destroy(error);
	return false;
}

/* The headers of an emission in the client's form, NULL where there are none or memory ran out. */
static uint32_t emitted_headers(struct worker *worker, size_t number, size_t count, rd_kafka_headers_t **headers)
{
	static _Thread_local uint8_t key[LONGEST_HEADER_KEY + 1], value[LONGEST_HEADER_VALUE];
	uint32_t fault = KLOG_OK;
	*headers = count ? rd_kafka_headers_new(count) : NULL;
	for (size_t at = 0; at < count && !fault; at++) {
		klog_header header;
		fault = klog_emission_header(&worker->outcome, number, at, &header);
		if (!fault)
			fault = klog_emission_header_key(&worker->outcome, number, at, key, LONGEST_HEADER_KEY);
		if (!fault)
			fault = klog_emission_header_value(&worker->outcome, number, at, value, sizeof value);
		if (!fault && rd_kafka_header_add(*headers, (const char *)key, (ssize_t)header.key_length,
						  header.nulls & KLOG_NULL_VALUE ? NULL : value, (ssize_t)header.value_length))
			fault = KLOG_MEMORY;
	}
	if (fault && *headers)
		rd_kafka_headers_destroy(*headers);
	return fault;
}

static outcome emit(struct worker *worker, size_t number, const klog_emission *emission, const rd_kafka_message_t *message,
		    int64_t timestamp)
{
	rd_kafka_headers_t *headers = NULL;
	uint32_t fault = klog_emission_key(&worker->outcome, number, worker->key, MOST_KEY);
	if (!fault)
		fault = klog_emission_value(&worker->outcome, number, worker->value, MOST_VALUE);
	if (!fault)
		fault = emitted_headers(worker, number, emission->header_count, &headers);
	if (fault) {
		stop(worker, END, "an emission can't be read: status %u", fault);
		return FAILED;
	}
	struct output output = {
		.topic = worker->outputs[emission->output], .partition = message->partition, .timestamp = timestamp,
		.key = emission->nulls & KLOG_NULL_KEY ? NULL : worker->key, .key_length = emission->key_length,
		.value = emission->nulls & KLOG_NULL_VALUE ? NULL : worker->value, .value_length = emission->value_length,
		.headers = headers};
	return produce(worker, &output) ? DONE : FAILED;
}

/* The headers of a dead letter: the record's own, and those that say where it was and why it is here. */
static rd_kafka_headers_t *dead_headers(const struct worker *worker, const rd_kafka_message_t *message, const char *reason,
					size_t *size)
{
	char partition[16], offset[24];
	snprintf(partition, sizeof partition, "%d", message->partition);
	snprintf(offset, sizeof offset, "%lld", (long long)message->offset);
	const char *added[DEAD_HEADERS][2] = {{"klog.topic", worker->options->input}, {"klog.partition", partition},
					      {"klog.offset", offset}, {"klog.reason", reason}};
	rd_kafka_headers_t *given;
	rd_kafka_headers_t *headers =
		rd_kafka_message_headers(message, &given) ? rd_kafka_headers_new(DEAD_HEADERS) : rd_kafka_headers_copy(given);
	const char *name;
	const void *value;
	size_t length;
	for (size_t k = 0; k < DEAD_HEADERS && headers; k++)
		if (rd_kafka_header_add(headers, added[k][0], -1, added[k][1], -1)) {
			rd_kafka_headers_destroy(headers);
			return NULL;
		}
	for (size_t k = 0; headers && !rd_kafka_header_get_all(headers, k, &name, &value, &length); k++)
		*size += FRAME + strlen(name) + length;
	return headers;
}

/* Leaves a record out, and says so, but for the many of one time. */
static outcome skip(struct worker *worker, const rd_kafka_message_t *message, const char *reason)
{
	worker->counts.skipped++;
	if (worker->told++ < TOLD_SKIPS)
		say(worker, "%s %d offset %lld skipped: %s", worker->options->input, message->partition,
		    (long long)message->offset, reason);
	return DONE;
}

/* Produces a dead letter. One that the client can't take either is skipped. */
static outcome bury(struct worker *worker, const rd_kafka_message_t *message, int64_t timestamp, const char *reason)
{
	char unweighed[TEXT];
	size_t size = FRAME + message->key_len + message->len;
	rd_kafka_headers_t *headers = dead_headers(worker, message, reason, &size);
	if (!headers) {
		stop(worker, END, "memory ran out");
		return FAILED;
	}
	if (weigh(worker, "the dead letter", size, unweighed) != DONE) {
		rd_kafka_headers_destroy(headers);
		return skip(worker, message, unweighed);
	}
	struct output output = {
		.topic = worker->dead, .partition = message->partition % worker->dead_partitions, .timestamp = timestamp,
		.key = message->key, .key_length = message->key_len, .value = message->payload, .value_length = message->len,
		.headers = headers};
	worker->counts.dead++;
	return produce(worker, &output) ? DONE : FAILED;
}

bool is_dead_code(const struct options *options, uint64_t code)
{
	for (size_t k = 0; k < options->dead_code_count; k++)
		if (options->dead_codes[k] == code)
			return true;
	return false;
}

/* Produces what the program made of a record. */
static outcome emit_all(struct worker *worker, const rd_kafka_message_t *message, int64_t timestamp, uint64_t code,
			size_t count, const klog_emission *emissions)
{
	outcome done = DONE;
	worker->counts.outputs += count;
	if (code)
		count_code(&worker->counts, code, 1);
	if (is_dead_code(worker->options, code)) {
		char reason[TEXT];
		snprintf(reason, sizeof reason, "rejected with code %llu", (unsigned long long)code);
		return bury(worker, message, timestamp, reason);
	}
	for (size_t k = 0; k < count && done == DONE; k++)
		done = emit(worker, k, &emissions[k], message, timestamp);
	return done;
}

/* Says from which offset on a partition has the program, where it is another one than was said last. */
static void say_program(struct worker *worker, struct place *place, const rd_kafka_message_t *message)
{
	if (place->said == worker->load)
		return;
	say(worker, "%s %d from offset %lld on: program %s", worker->options->input, message->partition,
	    (long long)message->offset, worker->digest);
	place->said = worker->load;
}

next_step run_on(struct worker *worker, const rd_kafka_message_t *message)
{
	char reason[TEXT];
	klog_emission emissions[KLOG_EMISSIONS];
	uint64_t code = 0;
	size_t count = 0;
	int64_t timestamp = rd_kafka_message_timestamp(message, NULL);
	struct place *place = place_of(worker, message->partition);
	if (!place)
		return stop(worker, END, "memory ran out");
	say_program(worker, place, message);
	place->next = message->offset + 1;
	worker->counts.records++;
	outcome done = run(worker, message, timestamp, &code, &count, reason);
	if (done == DONE)
		done = weigh_emissions(worker, count, emissions, reason);
	if (done == DONE)
		done = emit_all(worker, message, timestamp, code, count, emissions);
	else if (done == UNFIT && worker->options->is_strict)
		return stop(worker, END, "%s %d offset %lld: %s", worker->options->input, message->partition,
			    (long long)message->offset, reason);
	else if (done == UNFIT)
		done = worker->dead ? bury(worker, message, timestamp, reason) : skip(worker, message, reason);
	return done == DONE ? GO_ON : worker->step;
}
