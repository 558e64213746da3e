/* What the group gives to a worker: its partitions, and the offsets that it goes on from. */
#include "member.h"
#include <stdlib.h>

enum { PARTITIONS_SAID = TEXT - 64 };

struct place *place_of(struct worker *worker, int32_t partition)
{
	size_t at = (size_t)partition;
	if (at < worker->place_count)
		return &worker->places[at];
	size_t count = at + 16;
	struct place *places = realloc(worker->places, count * sizeof *places);
	if (!places)
		return NULL;
	for (size_t k = worker->place_count; k < count; k++)
		places[k] = (struct place){.next = -1, .committed = -1, .last = NONE};
	worker->places = places;
	worker->place_count = count;
	return &places[at];
}

static int by_number(const void *one, const void *other)
{
	int32_t x = *(const int32_t *)one, y = *(const int32_t *)other;
	return (x > y) - (x < y);
}

/* Says which partitions were given or taken back, with their numbers rising. */
static void say_places(struct worker *worker, const char *what, const rd_kafka_topic_partition_list_t *places)
{
	size_t count = (size_t)places->cnt, length = 0;
	int32_t *numbers = malloc((count + 1) * sizeof *numbers);
	char *text = malloc(count * 16 + 1);
	if (numbers && text) {
		for (size_t k = 0; k < count; k++)
			numbers[k] = places->elems[k].partition;
		qsort(numbers, count, sizeof *numbers, by_number);
		text[0] = 0;
		for (size_t k = 0; k < count && length < PARTITIONS_SAID; k++)
			length += (size_t)sprintf(text + length, k ? ", %d" : "%d", numbers[k]);
		say(worker, "%s %s [%s%s]", worker->options->input, what, text, length < PARTITIONS_SAID ? "" : ", ..");
	}
	free(text);
	free(numbers);
}

/* Keeps which partitions are the worker's, or that none is. */
static bool keep_assigned(struct worker *worker, const rd_kafka_topic_partition_list_t *places)
{
	bool is_kept = true;
	pthread_mutex_lock(&worker->lock);
	for (size_t k = 0; k < worker->place_count; k++) {
		worker->places[k].is_assigned = false;
		worker->places[k].said = 0;
	}
	for (int k = 0; places && k < places->cnt; k++) {
		struct place *place = place_of(worker, places->elems[k].partition);
		if (place)
			place->is_assigned = true;
		is_kept = is_kept && place;
	}
	pthread_mutex_unlock(&worker->lock);
	return is_kept;
}

/* The client calls this within a poll alone, so in no transaction. */
void shared_anew(rd_kafka_t *consumer, rd_kafka_resp_err_t why, rd_kafka_topic_partition_list_t *places, void *opaque)
{
	struct worker *worker = opaque;
	bool is_given = why == RD_KAFKA_RESP_ERR__ASSIGN_PARTITIONS;
	worker->is_given = worker->is_given || is_given;
	worker->is_revoked = worker->is_revoked || !is_given;
	say_places(worker, is_given ? "assigned" : "revoked", places);
	rd_kafka_resp_err_t fault = rd_kafka_assign(consumer, is_given ? places : NULL);
	if (!keep_assigned(worker, is_given ? places : NULL))
		fault = RD_KAFKA_RESP_ERR__CRIT_SYS_RESOURCE;
	if (fault)
		stop(worker, END, "assignment: %s", rd_kafka_err2str(fault));
}

/* Whether the cluster may answer another time. */
static bool is_passing(rd_kafka_resp_err_t fault)
{
	switch (fault) {
	case RD_KAFKA_RESP_ERR__TIMED_OUT:
	case RD_KAFKA_RESP_ERR__TRANSPORT:
	case RD_KAFKA_RESP_ERR__WAIT_COORD:
	case RD_KAFKA_RESP_ERR_REQUEST_TIMED_OUT:
	case RD_KAFKA_RESP_ERR_COORDINATOR_LOAD_IN_PROGRESS:
	case RD_KAFKA_RESP_ERR_COORDINATOR_NOT_AVAILABLE:
	case RD_KAFKA_RESP_ERR_NOT_COORDINATOR:
	case RD_KAFKA_RESP_ERR_UNSTABLE_OFFSET_COMMIT:
		return true;
	default:
		return false;
	}
}

/* Asks for the group's offsets of some partitions. Where one has none, the topic's first will do. */
static rd_kafka_resp_err_t ask_committed(struct worker *worker, rd_kafka_topic_partition_list_t *places)
{
	rd_kafka_resp_err_t fault;
	do
		fault = places->cnt ? rd_kafka_committed(worker->consumer, places, WAIT) : RD_KAFKA_RESP_ERR_NO_ERROR;
	while (is_passing(fault) && !atomic_load(worker->is_ended));
	for (int k = 0; !fault && k < places->cnt; k++)
		fault = places->elems[k].err;
	return fault;
}

static void keep_committed(struct worker *worker, const rd_kafka_topic_partition_list_t *places, bool is_back)
{
	pthread_mutex_lock(&worker->lock);
	for (size_t k = 0; k < worker->place_count && is_back; k++)
		worker->places[k].said = 0;
	for (int k = 0; k < places->cnt; k++) {
		struct place *place = place_of(worker, places->elems[k].partition);
		bool is_known = !places->elems[k].err && places->elems[k].offset >= 0;
		if (place)
			place->committed = is_known ? places->elems[k].offset : -1;
	}
	pthread_mutex_unlock(&worker->lock);
}

/* Asks where the partitions begin that have no committed offset: the group goes on from there. Without an answer their lag
 * is not known. */
static void learn_firsts(struct worker *worker, const rd_kafka_topic_partition_list_t *places)
{
	rd_kafka_topic_partition_list_t *firsts = rd_kafka_topic_partition_list_new(places->cnt);
	for (int k = 0; k < places->cnt; k++)
		if (places->elems[k].offset < 0)
			rd_kafka_topic_partition_list_add(firsts, worker->options->input, places->elems[k].partition)->offset =
				RD_KAFKA_OFFSET_BEGINNING;
	if (firsts->cnt && !rd_kafka_offsets_for_times(worker->consumer, firsts, LAST_WAIT))
		keep_committed(worker, firsts, false);
	rd_kafka_topic_partition_list_destroy(firsts);
}

next_step learn_places(struct worker *worker, bool is_back)
{
	rd_kafka_topic_partition_list_t *places;
	rd_kafka_resp_err_t fault = rd_kafka_assignment(worker->consumer, &places);
	if (fault)
		return stop(worker, END, "assignment: %s", rd_kafka_err2str(fault));
	fault = ask_committed(worker, places);
	if (!fault && is_back)
		fault = rd_kafka_assign(worker->consumer, places->cnt ? places : NULL);
	if (!fault) {
		keep_committed(worker, places, is_back);
		learn_firsts(worker, places);
	}
	rd_kafka_topic_partition_list_destroy(places);
	return fault ? stop(worker, END, "committed offsets: %s", rd_kafka_err2str(fault)) : GO_ON;
}

rd_kafka_topic_partition_list_t *offsets_after(const struct worker *worker)
{
	rd_kafka_topic_partition_list_t *places = rd_kafka_topic_partition_list_new(16);
	for (size_t k = 0; k < worker->place_count; k++)
		if (worker->places[k].next >= 0)
			rd_kafka_topic_partition_list_add(places, worker->options->input, (int32_t)k)->offset =
				worker->places[k].next;
	return places;
}
