/* The clients of a worker, by its options: a consumer, a producer and handles of the topics. */
#include "member.h"
#include <stdlib.h>

/* The client calls this for messages that it could not deliver alone. What the cluster refuses for good would be refused
 * again after an abort, so the process ends. */
static void not_delivered(rd_kafka_t *producer, const rd_kafka_message_t *message, void *opaque)
{
	struct worker *worker = opaque;
	switch (message->err) {
	case RD_KAFKA_RESP_ERR_MSG_SIZE_TOO_LARGE:
	case RD_KAFKA_RESP_ERR_INVALID_MSG_SIZE:
	case RD_KAFKA_RESP_ERR_INVALID_RECORD:
	case RD_KAFKA_RESP_ERR_TOPIC_AUTHORIZATION_FAILED:
	case RD_KAFKA_RESP_ERR_UNKNOWN_TOPIC_OR_PART:
	case RD_KAFKA_RESP_ERR_UNSUPPORTED_FOR_MESSAGE_FORMAT:
	case RD_KAFKA_RESP_ERR__UNKNOWN_PARTITION:
	case RD_KAFKA_RESP_ERR__UNKNOWN_TOPIC:
		stop(worker, END, "%s %d: %s", rd_kafka_topic_name(message->rkt), message->partition,
		     rd_kafka_err2str(message->err));
		break;
	default:
		stop(worker, ABORT, "%s %d: %s", rd_kafka_topic_name(message->rkt), message->partition,
		     rd_kafka_err2str(message->err));
	}
	(void)producer;
}

static bool set(struct worker *worker, rd_kafka_conf_t *settings, const char *key, const char *value)
{
	char text[TEXT - 64];
	if (rd_kafka_conf_set(settings, key, value, text, sizeof text) == RD_KAFKA_CONF_OK)
		return true;
	stop(worker, END, "setting %s: %s", key, text);
	return false;
}

/* The settings of a client: its own, and those of the command line. */
static bool set_all(struct worker *worker, rd_kafka_conf_t *settings, enum client client, const char *const own[][2])
{
	const struct options *options = worker->options;
	bool is_set = set(worker, settings, "bootstrap.servers", options->servers);
	for (size_t k = 0; own[k][0] && is_set; k++)
		is_set = set(worker, settings, own[k][0], own[k][1]);
	for (size_t k = 0; k < options->setting_count && is_set; k++)
		if (options->settings[k].client & client)
			is_set = set(worker, settings, options->settings[k].key, options->settings[k].value);
	return is_set;
}

/* A client of these settings, which are freed. */
static rd_kafka_t *client_of(struct worker *worker, rd_kafka_type_t type, rd_kafka_conf_t *settings, bool is_set)
{
	char text[TEXT - 64];
	rd_kafka_t *client = is_set ? rd_kafka_new(type, settings, text, sizeof text) : NULL;
	if (!client) {
		rd_kafka_conf_destroy(settings);
		stop(worker, END, "client: %s", text);
	}
	return client;
}

static bool open_consumer(struct worker *worker)
{
	const char *const own[][2] = {{"group.id", worker->options->group}, {"auto.offset.reset", "earliest"},
				      {"enable.auto.commit", "false"}, {"enable.auto.offset.store", "false"},
				      {"isolation.level", "read_committed"}, {NULL, NULL}};
	rd_kafka_conf_t *settings = rd_kafka_conf_new();
	rd_kafka_conf_set_opaque(settings, worker);
	rd_kafka_conf_set_rebalance_cb(settings, shared_anew);
	bool is_set = set_all(worker, settings, CONSUMER, own);
	worker->consumer = client_of(worker, RD_KAFKA_CONSUMER, settings, is_set);
	if (!worker->consumer)
		return false;
	worker->queue = rd_kafka_queue_get_consumer(worker->consumer);
	rd_kafka_topic_partition_list_t *topics = rd_kafka_topic_partition_list_new(1);
	rd_kafka_topic_partition_list_add(topics, worker->options->input, RD_KAFKA_PARTITION_UA);
	rd_kafka_resp_err_t fault = rd_kafka_subscribe(worker->consumer, topics);
	rd_kafka_topic_partition_list_destroy(topics);
	if (fault)
		stop(worker, END, "%s: %s", worker->options->input, rd_kafka_err2str(fault));
	return !fault;
}

static bool open_producer(struct worker *worker)
{
	char name[TEXT], longest[24];
	size_t length = sizeof longest;
	snprintf(name, sizeof name, "%s-%s-%zu", worker->options->group, worker->options->name, worker->number);
	const char *const own[][2] = {{"transactional.id", name}, {"linger.ms", "20"},
				      {"delivery.report.only.error", "true"}, {NULL, NULL}};
	rd_kafka_conf_t *settings = rd_kafka_conf_new();
	rd_kafka_conf_set_opaque(settings, worker);
	rd_kafka_conf_set_dr_msg_cb(settings, not_delivered);
	bool is_set = set_all(worker, settings, PRODUCER, own);
	if (is_set && rd_kafka_conf_get(settings, "message.max.bytes", longest, &length) == RD_KAFKA_CONF_OK)
		worker->longest_message = strtoul(longest, NULL, 10);
	worker->producer = client_of(worker, RD_KAFKA_PRODUCER, settings, is_set);
	return worker->producer != NULL;
}

static bool open_topic(struct worker *worker, const char *name, rd_kafka_topic_t **topic)
{
	*topic = rd_kafka_topic_new(worker->producer, name, NULL);
	if (!*topic)
		stop(worker, END, "%s: %s", name, rd_kafka_err2str(rd_kafka_last_error()));
	return *topic != NULL;
}

/* Whether a topic has as many partitions as are wanted; any number will do where that is 0. The number that it has. */
static bool count_partitions(struct worker *worker, const char *topic, int32_t wanted, int32_t *found)
{
	const struct rd_kafka_metadata *told;
	rd_kafka_topic_t *handle = rd_kafka_topic_new(worker->producer, topic, NULL);
	if (!handle)
		return stop(worker, END, "%s: %s", topic, rd_kafka_err2str(rd_kafka_last_error())), false;
	rd_kafka_resp_err_t fault = rd_kafka_metadata(worker->producer, 0, handle, &told, WAIT);
	rd_kafka_topic_destroy(handle);
	if (fault)
		return stop(worker, END, "%s: %s", topic, rd_kafka_err2str(fault)), false;
	if (told->topic_cnt == 1)
		fault = told->topics[0].err;
	*found = told->topic_cnt == 1 ? told->topics[0].partition_cnt : 0;
	rd_kafka_metadata_destroy(told);
	if (fault || *found == 0)
		return stop(worker, END, "%s: %s", topic, fault ? rd_kafka_err2str(fault) : "no partitions"), false;
	if (wanted && *found != wanted)
		return stop(worker, END, "%s has %d partitions, and %s %d: each output needs as many as the input", topic,
			    *found, worker->options->input, wanted), false;
	return true;
}

/* Makes the handles of the topics. The first worker looks whether they fit each other. */
static bool open_topics(struct worker *worker)
{
	const struct options *options = worker->options;
	int32_t wanted, found;
	if (!count_partitions(worker, options->input, 0, &wanted))
		return false;
	for (size_t k = 0; k < options->output_count; k++)
		if (!open_topic(worker, options->outputs[k], &worker->outputs[k]) ||
		    (worker->number == 0 && !count_partitions(worker, options->outputs[k], wanted, &found)))
			return false;
	return !options->dead || (open_topic(worker, options->dead, &worker->dead) &&
				  count_partitions(worker, options->dead, 0, &worker->dead_partitions));
}

bool open_clients(struct worker *worker)
{
	return open_producer(worker) && open_topics(worker) && open_consumer(worker);
}

void close_clients(struct worker *worker)
{
	for (size_t k = 0; k < worker->options->output_count; k++)
		if (worker->outputs[k])
			rd_kafka_topic_destroy(worker->outputs[k]);
	if (worker->dead)
		rd_kafka_topic_destroy(worker->dead);
	if (worker->queue)
		rd_kafka_queue_destroy(worker->queue);
	if (worker->consumer)
		rd_kafka_destroy(worker->consumer);
	if (worker->producer)
		rd_kafka_destroy(worker->producer);
}
