/* A thread of a member: it polls, runs, produces and commits. */
#include "member.h"
#include <stdarg.h>
#include <stdlib.h>
#include <string.h>

enum { TURNS = 16 };

next_step stop(struct worker *worker, next_step step, const char *form, ...)
{
	if (step > worker->step) {
		va_list words;
		va_start(words, form);
		vsnprintf(worker->fault, sizeof worker->fault, form, words);
		va_end(words);
		worker->step = step;
	}
	return step;
}

bool is_again(const struct worker *worker, rd_kafka_error_t **error)
{
	if (!*error || !rd_kafka_error_is_retriable(*error) || atomic_load(worker->is_ended))
		return false;
	rd_kafka_error_destroy(*error);
	*error = NULL;
	return true;
}

next_step after(struct worker *worker, const char *call, rd_kafka_error_t *error)
{
	if (!error)
		return GO_ON;
	next_step step = rd_kafka_error_txn_requires_abort(error) ? ABORT : END;
	stop(worker, step, "%s: %s", call, rd_kafka_error_string(error));
	rd_kafka_error_destroy(error);
	return step;
}

/* Another program's handle, if the file has another one by now. */
static next_step take_up(struct worker *worker)
{
	struct image *image = worker->image;
	if (atomic_load(&image->loads) == worker->load)
		return GO_ON;
	pthread_mutex_lock(&image->lock);
	uint32_t fault = klog_share(&image->program, &worker->program);
	if (!fault) {
		worker->load = atomic_load(&image->loads);
		memcpy(worker->digest, image->digest, sizeof worker->digest);
	}
	pthread_mutex_unlock(&image->lock);
	return fault ? stop(worker, END, "memory ran out") : GO_ON;
}

/* Looks at a fault that a poll gave in a record's place. */
static void note_fault(struct worker *worker, const rd_kafka_message_t *message)
{
	if (message->err == RD_KAFKA_RESP_ERR__MAX_POLL_EXCEEDED)
		worker->is_revoked = true; /* the group went on without this worker; the next poll joins again */
	else if (message->err)
		stop(worker, END, "poll: %s", rd_kafka_message_errstr(message));
}

/* The next records. Where partitions were taken back during the poll, some may be another's by now: none of them. What is
 * still this worker's, or is again, goes on from the committed offsets. */
static size_t poll_records(struct worker *worker)
{
	const struct options *options = worker->options;
	worker->is_given = worker->is_revoked = false;
	ssize_t count =
		rd_kafka_consume_batch_queue(worker->queue, options->milliseconds, worker->polled, options->records);
	if (count < 0)
		stop(worker, END, "poll: %s", rd_kafka_err2str(rd_kafka_last_error()));
	for (ssize_t k = 0; k < count; k++)
		note_fault(worker, worker->polled[k]);
	if (worker->step == GO_ON && (worker->is_given || worker->is_revoked))
		learn_places(worker, worker->is_revoked);
	if (worker->step == GO_ON && !worker->is_revoked)
		return count > 0 ? (size_t)count : 0;
	for (ssize_t k = 0; k < count; k++)
		rd_kafka_message_destroy(worker->polled[k]);
	return 0;
}

static next_step commit(struct worker *worker)
{
	rd_kafka_error_t *error;
	rd_kafka_topic_partition_list_t *places = offsets_after(worker);
	rd_kafka_consumer_group_metadata_t *group = rd_kafka_consumer_group_metadata(worker->consumer);
	do
		error = rd_kafka_send_offsets_to_transaction(worker->producer, places, group, WAIT);
	while (is_again(worker, &error));
	rd_kafka_consumer_group_metadata_destroy(group);
	rd_kafka_topic_partition_list_destroy(places);
	if (error)
		return after(worker, "offsets", error);
	do
		error = rd_kafka_commit_transaction(worker->producer, WAIT);
	while (is_again(worker, &error));
	return after(worker, "commit", error);
}

/* Counts a transaction that was committed. */
static void keep_counts(struct worker *worker)
{
	pthread_mutex_lock(&worker->lock);
	worker->counts.committed = 1;
	worker->is_open = false;
	add_counts(&worker->committed, &worker->counts);
	for (size_t k = 0; k < worker->place_count; k++)
		if (worker->places[k].next >= 0)
			worker->places[k].committed = worker->places[k].next;
	pthread_mutex_unlock(&worker->lock);
}

/* Discards what the transaction produced. */
static void abort_open(struct worker *worker, int milliseconds)
{
	rd_kafka_error_t *error;
	do
		error = rd_kafka_abort_transaction(worker->producer, milliseconds);
	while (is_again(worker, &error));
	worker->is_open = false;
	if (!error)
		return;
	stop(worker, END, "abort: %s", rd_kafka_error_string(error));
	rd_kafka_error_destroy(error);
}

/* Discards what the transaction produced, and goes back: its records are polled again. */
static next_step begin_anew(struct worker *worker)
{
	say(worker, "transaction aborted: %s", worker->fault);
	abort_open(worker, WAIT);
	if (worker->step == END)
		return END;
	worker->step = GO_ON;
	pthread_mutex_lock(&worker->lock);
	worker->committed.aborted++;
	pthread_mutex_unlock(&worker->lock);
	return learn_places(worker, true);
}

/* Links each polled record to the next one of its partition, and puts the first one of each in front of the order; how many
 * these are. */
static size_t link_records(struct worker *worker, size_t count)
{
	size_t firsts = 0;
	for (uint32_t k = 0; k < count; k++) {
		struct place *place = place_of(worker, worker->polled[k]->partition);
		if (!place) {
			stop(worker, END, "memory ran out");
			return 0;
		}
		if (place->last == NONE)
			worker->order[firsts++] = k;
		else
			worker->following[place->last] = k;
		worker->following[k] = NONE;
		place->last = k;
	}
	return firsts;
}

/* Runs the program on a record, which is destroyed. The number of the next one of its partition, or NONE. */
static next_step run_alone(struct worker *worker, uint32_t number, uint32_t *next)
{
	next_step step = run_on(worker, worker->polled[number]);
	rd_kafka_message_destroy(worker->polled[number]);
	worker->polled[number] = NULL;
	*next = worker->following[number];
	return step;
}

/* Runs the program on the first record of each partition, on the second of each, and so on, and after some turns on all
 * others of one partition and of the next, batch by batch. So the outputs' partitions get their first records at about the
 * same time. With its first record a partition is registered with the transaction, for which librdkafka's main thread waits
 * busily for a millisecond, but once alone for all that come meanwhile. */
static next_step run_on_all(struct worker *worker, size_t count)
{
	next_step step = GO_ON;
	size_t end = link_records(worker, count);
	const size_t turned = end * TURNS;
	for (size_t at = 0; at < end && step == GO_ON; at++) {
		uint32_t k = worker->order[at];
		if (at < turned)
			step = run_alone(worker, k, &k);
		while (at >= turned && k != NONE && step == GO_ON)
			step = run_on_batch(worker, k, &k);
		if (k != NONE)
			worker->order[end++] = k;
	}
	return end ? step : worker->step;
}

/* Runs the program on what was polled: its outputs and the offsets after it are committed together or not. */
static next_step transact(struct worker *worker, size_t count)
{
	worker->counts = (struct counts){0};
	for (size_t k = 0; k < worker->place_count; k++) {
		worker->places[k].next = -1;
		worker->places[k].last = NONE;
	}
	next_step step = after(worker, "begin", rd_kafka_begin_transaction(worker->producer));
	worker->is_open = step == GO_ON;
	if (step == GO_ON)
		step = run_on_all(worker, count);
	if (step == GO_ON)
		step = commit(worker);
	if (step == GO_ON)
		keep_counts(worker);
	return worker->step == ABORT ? begin_anew(worker) : worker->step;
}

void *run_worker(void *opaque)
{
	struct worker *worker = opaque;
	rd_kafka_error_t *error;
	do
		error = rd_kafka_init_transactions(worker->producer, WAIT);
	while (is_again(worker, &error));
	next_step step = after(worker, "init", error);
	while (step == GO_ON && !atomic_load(worker->is_ended)) {
		step = take_up(worker);
		size_t count = step == GO_ON ? poll_records(worker) : 0;
		if (count)
			step = transact(worker, count);
		for (size_t k = 0; k < count; k++)
			if (worker->polled[k])
				rd_kafka_message_destroy(worker->polled[k]);
		if (worker->step != GO_ON)
			step = worker->step;
	}
	if (step != GO_ON) {
		say(worker, "ended: %s", worker->fault);
		worker->is_failed = true;
		atomic_store(worker->is_ended, true);
		if (worker->is_open)
			abort_open(worker, LAST_WAIT);
	}
	rd_kafka_resp_err_t fault = rd_kafka_consumer_close(worker->consumer);
	if (fault)
		say(worker, "leaving the group: %s", rd_kafka_err2str(fault));
	return NULL;
}

bool open_worker(struct worker *worker)
{
	pthread_mutex_init(&worker->lock, NULL);
	worker->polled = calloc(worker->options->records, sizeof *worker->polled);
	worker->following = calloc(worker->options->records, sizeof *worker->following);
	worker->order = calloc(worker->options->records, sizeof *worker->order);
	worker->key = malloc(MOST_KEY);
	worker->value = malloc(MOST_VALUE);
	worker->batch = malloc(LONGEST_BATCH);
	if (!worker->polled || !worker->following || !worker->order || !worker->key || !worker->value || !worker->batch)
		stop(worker, END, "memory ran out");
	else if (open_clients(worker))
		return true;
	say(worker, "ended: %s", worker->fault);
	return false;
}

void close_worker(struct worker *worker)
{
	close_clients(worker);
	klog_free(&worker->batches);
	klog_free(&worker->outcome);
	klog_free(&worker->headers);
	klog_free(&worker->program);
	free(worker->places);
	free(worker->polled);
	free(worker->following);
	free(worker->order);
	free(worker->key);
	free(worker->value);
	free(worker->batch);
	free(worker->rows);
}
