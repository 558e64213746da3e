/* A member of a consumer group: what its parts have in common. member.c says what it does. */
#ifndef MEMBER_H
#define MEMBER_H

#include <klog_engine.h>
#include <librdkafka/rdkafka.h>
#include <pthread.h>
#include <stdatomic.h>
#include <stdbool.h>
#include <stdint.h>
#include <stdio.h>

enum {
	PARTITIONS = 64, /* of klog: a program sees a partition's number modulo 64 */
	MOST_OUTPUTS = 64,
	MOST_THREADS = 64,
	MOST_CODES = 64,    /* reject codes that are counted each by itself */
	MOST_SETTINGS = 64, /* of the clients */
	WAIT = 30000,       /* milliseconds for one answer of the cluster */
	LAST_WAIT = 5000,   /* and for the last one, before the process ends by a fault */
	LOOK = 100,         /* milliseconds between two looks at the program's file */
	REPORT = 5,         /* seconds between two reports */
	DIGITS = 16,        /* of a program's SHA-256 that are printed */
	MOST_KEY = 4096,    /* bytes of an emission's key, and of its value */
	MOST_VALUE = 1048576,
	LONGEST_BATCH = 1 << 18, /* bytes of records that are run by one call */
	LONGEST_HEADER_KEY = 255,
	LONGEST_HEADER_VALUE = 4096,
	FRAME = 64,         /* at most what a message has beside its parts, and a header beside its own */
	TEXT = 512
};

#define NONE UINT32_MAX /* no polled record: their numbers are smaller */

/* What follows a step: the next one, the end of a transaction without its records, or the end of the process. */
typedef enum { GO_ON, ABORT, END } next_step;

/* options.c */

enum client { CONSUMER = 1, PRODUCER = 2, BOTH = 3 };

struct setting {
	enum client client;
	char *key;
	const char *value;
};

struct options {
	const char *servers, *group, *name, *image, *input, *dead, *metrics;
	const char *outputs[MOST_OUTPUTS];
	size_t output_count;
	uint64_t dead_codes[MOST_CODES];
	size_t dead_code_count;
	struct setting settings[MOST_SETTINGS];
	size_t setting_count;
	uint32_t table;
	size_t threads, records;
	int milliseconds;
	bool is_strict;
};

/* Reads the words of the command line. Words that can't be ended the process. */
void read_options(int argc, char **argv, struct options *options);

/* image.c: the program that stands in a file. The main thread renews it; workers take it up. */

struct image {
	const char *name;
	uint32_t table;
	pthread_mutex_t lock; /* of the program and its digest */
	klog_handle program;
	char digest[DIGITS + 1];
	atomic_uint loads; /* how many programs there were, 0 before the first */
	int64_t stamp[4];  /* of the file: seconds, nanoseconds, size, inode */
	unsigned refused;  /* how many files were refused */
};

/* Loads the file where it has changed. Whether there is a program. */
bool renew_image(struct image *image);

/* counts.c */

struct code {
	uint64_t code, records;
};

struct counts {
	uint64_t records, outputs, dead, skipped, committed, aborted;
	uint64_t other_codes; /* records that were rejected with a code that has no row */
	struct code codes[MOST_CODES];
	size_t code_count;
};

void count_code(struct counts *counts, uint64_t code, uint64_t records);
void add_counts(struct counts *counts, const struct counts *more);

struct worker;

/* Prints what all workers committed. */
void report(struct worker *workers, size_t count);

/* Writes the metrics file by a rename. */
void write_metrics(const struct options *options, struct image *image, struct worker *workers);

/* Prints a line after the time, and after the worker's number where it has one. */
__attribute__((format(printf, 2, 3))) void say(const struct worker *worker, const char *form, ...);

/* worker.c: a thread, with a consumer, a producer and a handle of the program of its own */

/* A partition of the input. */
struct place {
	bool is_assigned;
	int64_t next;      /* the offset after the records of this transaction, -1 where it has none of here */
	int64_t committed; /* the offset that the group goes on from, -1 where that is not known */
	unsigned said;     /* the load whose program was said to run on it, 0 for none */
	uint32_t last;     /* the number of its last record that was polled, NONE where there is none */
};

struct worker {
	const struct options *options;
	struct image *image;
	atomic_bool *is_ended;
	size_t number;
	pthread_t thread;
	bool is_failed;

	rd_kafka_t *consumer, *producer;
	rd_kafka_queue_t *queue;
	rd_kafka_topic_t *outputs[MOST_OUTPUTS], *dead;
	int32_t dead_partitions;
	size_t longest_message;
	rd_kafka_message_t **polled;
	uint32_t *following; /* the number of the next record of the same partition, NONE after the last */
	uint32_t *order;     /* the numbers of the records in the order of their turns */
	bool is_open;        /* a transaction, neither committed nor aborted */
	bool is_given;       /* partitions were, since the last poll began */
	bool is_revoked;     /* and taken back */
	struct place *places;
	size_t place_count;

	unsigned load;
	char digest[DIGITS + 1];
	klog_handle program, headers, outcome, batches;
	uint8_t *key, *value; /* of an emission */
	uint8_t *batch;       /* a record batch that is run */
	uint8_t *rows;        /* the batches of its outputs, and how many bytes they may take */
	size_t rows_room;
	struct counts counts; /* of this transaction */
	atomic_uint told;     /* skipped records that were printed since the last report */
	next_step step;       /* what follows, and why */
	char fault[TEXT];

	pthread_mutex_t lock; /* of what is below, and of `places`: the main thread reads it */
	struct counts committed;
};

bool open_worker(struct worker *worker);
void *run_worker(void *worker);
void close_worker(struct worker *worker);

/* The place of a partition; NULL where memory runs out. */
struct place *place_of(struct worker *worker, int32_t partition);

/* Keeps why a worker can't go on. */
__attribute__((format(printf, 3, 4))) next_step stop(struct worker *worker, next_step step, const char *form, ...);

/* What follows a fault of a call, which is freed. */
next_step after(struct worker *worker, const char *call, rd_kafka_error_t *error);

/* Whether a call that failed can be made again: the cluster says so. The fault is freed then. */
bool is_again(const struct worker *worker, rd_kafka_error_t **error);

/* clients.c */

/* Makes the clients of a worker, and looks whether the topics fit each other. */
bool open_clients(struct worker *worker);
void close_clients(struct worker *worker);

/* group.c: what the group gives to a worker */

void shared_anew(rd_kafka_t *consumer, rd_kafka_resp_err_t why, rd_kafka_topic_partition_list_t *places, void *worker);

/* Asks from which offsets the group goes on, for the lag, and goes back there if `is_back`. */
next_step learn_places(struct worker *worker, bool is_back);

/* The offsets after the records of this transaction. */
rd_kafka_topic_partition_list_t *offsets_after(const struct worker *worker);

/* record.c */

/* A message for the client. Null parts are null pointers, and a timestamp below 0 is none. */
struct output {
	rd_kafka_topic_t *topic;
	int32_t partition;
	int64_t timestamp;
	const void *key, *value;
	size_t key_length, value_length;
	rd_kafka_headers_t *headers;
};

/* Hands a message to the client, and its headers with it. Where the client's queue is full, some of it is sent first. False
 * where it fails: the worker's step says what follows. */
bool produce(struct worker *worker, const struct output *output);

/* Whether records that a program rejects with a code become dead letters. */
bool is_dead_code(const struct options *options, uint64_t code);

/* Runs the program on a record, and produces what comes out. */
next_step run_on(struct worker *worker, const rd_kafka_message_t *record);

/* batch.c */

/* Runs the program on the record of a number and on those behind it in its partition, as many as make a batch, and produces
 * what comes out. These records are destroyed. The number of the next one goes to `*next`, or NONE. */
next_step run_on_batch(struct worker *worker, uint32_t first, uint32_t *next);

#endif
