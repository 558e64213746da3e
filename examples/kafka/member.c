/* Runs a klog program on the records of a Kafka topic, each exactly once, as a member of a consumer group.
 * docs/guide/scaling.md says how to set it up; `member --help` lists the options.
 *
 * - Each thread has a consumer, a producer and a handle of the program of its own, and is a member of the group by itself:
 *   the group shares the partitions out among all threads of all processes.
 * - What the program emits to its output Q goes to the Q-th of the outputs, to the partition that the record came from. So
 *   each output topic has as many partitions as the input, and a partition keeps its order.
 * - The outputs of a poll, its dead letters and its offsets are one transaction. A consumer that reads committed records
 *   alone sees each output once, whichever process dies, and whenever.
 * - A process has a name of its own, and the same one after a restart: by it Kafka ends the transactions that a killed
 *   process left open, and refuses those of one that only seemed dead.
 * - The file of the program is looked at ten times a second; a worker takes a new program up between two transactions.
 *
 * What fails for good ends the process with status 1: let a supervisor start it again. SIGTERM ends it after the
 * transactions that are under way. */
#include "member.h"
#include <errno.h>
#include <signal.h>
#include <stdlib.h>
#include <string.h>
#include <time.h>

struct member {
	struct options options;
	struct image image;
	struct worker workers[MOST_THREADS];
	atomic_bool is_ended;
};

static int64_t seconds_now(void)
{
	struct timespec now;
	clock_gettime(CLOCK_MONOTONIC, &now);
	return now.tv_sec;
}

/* Prints a report, and writes the metrics. */
static void tell(struct member *member)
{
	report(member->workers, member->options.threads);
	for (size_t k = 0; k < member->options.threads; k++)
		atomic_store(&member->workers[k].told, 0);
	if (member->options.metrics)
		write_metrics(&member->options, &member->image, member->workers);
}

/* Looks after the file and the signals until all workers are to end. */
static void watch(struct member *member, const sigset_t *signals)
{
	const struct timespec look = {0, LOOK * 1000000L};
	int64_t told = seconds_now();
	while (!atomic_load(&member->is_ended)) {
		if (sigtimedwait(signals, NULL, &look) > 0)
			atomic_store(&member->is_ended, true);
		renew_image(&member->image);
		if (seconds_now() >= told + REPORT) {
			tell(member);
			told = seconds_now();
		}
	}
}

static bool open_workers(struct member *member)
{
	for (size_t k = 0; k < member->options.threads; k++) {
		struct worker *worker = &member->workers[k];
		worker->options = &member->options;
		worker->image = &member->image;
		worker->is_ended = &member->is_ended;
		worker->number = k;
		if (!open_worker(worker))
			return false;
	}
	return true;
}

/* Runs the workers; whether all ended well. */
static bool run_workers(struct member *member, const sigset_t *signals)
{
	bool is_good = true;
	size_t count = 0;
	while (count < member->options.threads &&
	       !pthread_create(&member->workers[count].thread, NULL, run_worker, &member->workers[count]))
		count++;
	if (count == member->options.threads)
		watch(member, signals);
	else
		say(NULL, "ended: a thread can't be started: %s", strerror(errno));
	atomic_store(&member->is_ended, true);
	for (size_t k = 0; k < count; k++) {
		pthread_join(member->workers[k].thread, NULL);
		is_good = is_good && !member->workers[k].is_failed;
	}
	tell(member);
	return is_good && count == member->options.threads;
}

int main(int argc, char **argv)
{
	static struct member member;
	sigset_t signals;
	setvbuf(stdout, NULL, _IOLBF, 0);
	read_options(argc, argv, &member.options);
	sigemptyset(&signals);
	sigaddset(&signals, SIGTERM);
	sigaddset(&signals, SIGINT);
	pthread_sigmask(SIG_BLOCK, &signals, NULL);
	member.image = (struct image){.name = member.options.image, .table = member.options.table,
				      .lock = PTHREAD_MUTEX_INITIALIZER};
	bool is_good = renew_image(&member.image) && open_workers(&member) && run_workers(&member, &signals);
	for (size_t k = 0; k < member.options.threads; k++)
		if (member.workers[k].options)
			close_worker(&member.workers[k]);
	klog_free(&member.image.program);
	for (size_t k = 0; k < member.options.setting_count; k++)
		free(member.options.settings[k].key);
	return is_good ? 0 : 1;
}
