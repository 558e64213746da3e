/* What librdkafka alone costs: consumes a topic as a member of a group, and produces each record with its headers to another
 * topic in transactions with the offsets, as examples/kafka/member.c does, with no program. kafka_scaling.py builds and runs it:
 *
 *	kafka_alone SERVERS GROUP INPUT OUTPUT RECORDS
 *
 * It prints as a member does when it has partitions. It is for measuring: any fault ends it. */
#include <librdkafka/rdkafka.h>
#include <stdio.h>
#include <stdlib.h>
#include <time.h>

enum { WAIT = 30000, POLL = 500, MOST_PARTITIONS = 1024 };

static void refuse(const char *what, const char *why)
{
	fprintf(stderr, "kafka_alone: %s: %s\n", what, why);
	exit(1);
}

static void need(const char *what, rd_kafka_error_t *error)
{
	if (error)
		refuse(what, rd_kafka_error_string(error));
}

static void shared_anew(rd_kafka_t *consumer, rd_kafka_resp_err_t why, rd_kafka_topic_partition_list_t *places, void *opaque)
{
	int is_given = why == RD_KAFKA_RESP_ERR__ASSIGN_PARTITIONS;
	(void)opaque;
	if (rd_kafka_assign(consumer, is_given ? places : NULL))
		refuse("assign", "failed");
	if (is_given && places->cnt)
		printf("%lld.0 in assigned [%d, ..]\n", (long long)time(NULL), places->elems[0].partition);
}

static rd_kafka_t *client_of(rd_kafka_type_t type, rd_kafka_conf_t *settings, const char *const all[][2])
{
	char text[512];
	for (int k = 0; all[k][0]; k++)
		if (rd_kafka_conf_set(settings, all[k][0], all[k][1], text, sizeof text))
			refuse("setting", text);
	rd_kafka_t *client = rd_kafka_new(type, settings, text, sizeof text);
	if (!client)
		refuse("client", text);
	return client;
}

static rd_kafka_t *consumer_of(const char *servers, const char *group, const char *input)
{
	const char *const all[][2] = {{"bootstrap.servers", servers}, {"group.id", group}, {"auto.offset.reset", "earliest"},
				      {"enable.auto.commit", "false"}, {"enable.auto.offset.store", "false"},
				      {"isolation.level", "read_committed"}, {NULL, NULL}};
	rd_kafka_conf_t *settings = rd_kafka_conf_new();
	rd_kafka_conf_set_rebalance_cb(settings, shared_anew);
	rd_kafka_t *consumer = client_of(RD_KAFKA_CONSUMER, settings, all);
	rd_kafka_topic_partition_list_t *topics = rd_kafka_topic_partition_list_new(1);
	rd_kafka_topic_partition_list_add(topics, input, RD_KAFKA_PARTITION_UA);
	if (rd_kafka_subscribe(consumer, topics))
		refuse(input, "can't be subscribed to");
	rd_kafka_topic_partition_list_destroy(topics);
	return consumer;
}

static void forward(rd_kafka_t *producer, rd_kafka_topic_t *output, const rd_kafka_message_t *record)
{
	rd_kafka_headers_t *given, *headers = rd_kafka_message_headers(record, &given) ? NULL : rd_kafka_headers_copy(given);
	const rd_kafka_vu_t parts[] = {
		{.vtype = RD_KAFKA_VTYPE_RKT, .u.rkt = output},
		{.vtype = RD_KAFKA_VTYPE_PARTITION, .u.i32 = record->partition},
		{.vtype = RD_KAFKA_VTYPE_MSGFLAGS, .u.i = RD_KAFKA_MSG_F_COPY},
		{.vtype = RD_KAFKA_VTYPE_KEY, .u.mem = {record->key, record->key_len}},
		{.vtype = RD_KAFKA_VTYPE_VALUE, .u.mem = {record->payload, record->len}},
		{.vtype = RD_KAFKA_VTYPE_TIMESTAMP, .u.i64 = rd_kafka_message_timestamp(record, NULL)},
		{.vtype = RD_KAFKA_VTYPE_HEADERS, .u.headers = headers}};
	need("produce", rd_kafka_produceva(producer, parts, sizeof parts / sizeof parts[0] - (headers == NULL)));
}

static void transact(rd_kafka_t *consumer, rd_kafka_t *producer, rd_kafka_topic_t *output, const char *input,
		     rd_kafka_message_t **polled, ssize_t count)
{
	static int64_t next[MOST_PARTITIONS];
	need("begin", rd_kafka_begin_transaction(producer));
	for (ssize_t k = 0; k < count; k++) {
		if (polled[k]->err || polled[k]->partition >= MOST_PARTITIONS)
			refuse("poll", rd_kafka_message_errstr(polled[k]));
		forward(producer, output, polled[k]);
		next[polled[k]->partition] = polled[k]->offset + 1;
		rd_kafka_message_destroy(polled[k]);
	}
	rd_kafka_topic_partition_list_t *places = rd_kafka_topic_partition_list_new(16);
	for (int k = 0; k < MOST_PARTITIONS; k++) {
		if (next[k])
			rd_kafka_topic_partition_list_add(places, input, k)->offset = next[k];
		next[k] = 0;
	}
	rd_kafka_consumer_group_metadata_t *group = rd_kafka_consumer_group_metadata(consumer);
	need("offsets", rd_kafka_send_offsets_to_transaction(producer, places, group, WAIT));
	need("commit", rd_kafka_commit_transaction(producer, WAIT));
	rd_kafka_consumer_group_metadata_destroy(group);
	rd_kafka_topic_partition_list_destroy(places);
}

int main(int argc, char **argv)
{
	if (argc != 6 || atoi(argv[5]) < 1)
		refuse("usage", "kafka_alone SERVERS GROUP INPUT OUTPUT RECORDS");
	const size_t most = (size_t)atoi(argv[5]);
	const char *const all[][2] = {{"bootstrap.servers", argv[1]}, {"transactional.id", argv[2]}, {"linger.ms", "20"},
				      {NULL, NULL}};
	setvbuf(stdout, NULL, _IOLBF, 0);
	rd_kafka_t *producer = client_of(RD_KAFKA_PRODUCER, rd_kafka_conf_new(), all);
	need("init", rd_kafka_init_transactions(producer, WAIT));
	rd_kafka_topic_t *output = rd_kafka_topic_new(producer, argv[4], NULL);
	rd_kafka_t *consumer = consumer_of(argv[1], argv[2], argv[3]);
	rd_kafka_queue_t *queue = rd_kafka_queue_get_consumer(consumer);
	rd_kafka_message_t **polled = calloc(most, sizeof *polled);
	if (!polled || !output || !queue)
		refuse("memory", "ran out");
	for (;;) {
		ssize_t count = rd_kafka_consume_batch_queue(queue, POLL, polled, most);
		if (count > 0)
			transact(consumer, producer, output, argv[3], polled, count);
	}
}
