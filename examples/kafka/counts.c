/* What a member counts, prints and writes for Prometheus. */
#include "member.h"
#include <errno.h>
#include <stdarg.h>
#include <string.h>
#include <time.h>

void say(const struct worker *worker, const char *form, ...)
{
	char line[2 * TEXT];
	struct timespec now;
	va_list words;
	va_start(words, form);
	vsnprintf(line, sizeof line, form, words);
	va_end(words);
	clock_gettime(CLOCK_REALTIME, &now);
	if (worker)
		printf("%lld.%06ld %zu: %s\n", (long long)now.tv_sec, now.tv_nsec / 1000, worker->number, line);
	else
		printf("%lld.%06ld %s\n", (long long)now.tv_sec, now.tv_nsec / 1000, line);
}

void count_code(struct counts *counts, uint64_t code, uint64_t records)
{
	size_t k = 0;
	while (k < counts->code_count && counts->codes[k].code != code)
		k++;
	if (k == MOST_CODES) {
		counts->other_codes += records;
		return;
	}
	if (k == counts->code_count)
		counts->codes[counts->code_count++] = (struct code){code, 0};
	counts->codes[k].records += records;
}

void add_counts(struct counts *counts, const struct counts *more)
{
	counts->records += more->records;
	counts->outputs += more->outputs;
	counts->dead += more->dead;
	counts->skipped += more->skipped;
	counts->committed += more->committed;
	counts->aborted += more->aborted;
	counts->other_codes += more->other_codes;
	for (size_t k = 0; k < more->code_count; k++)
		count_code(counts, more->codes[k].code, more->codes[k].records);
}

static struct counts sum_of(struct worker *workers, size_t count)
{
	struct counts sum = {0};
	for (size_t k = 0; k < count; k++) {
		pthread_mutex_lock(&workers[k].lock);
		add_counts(&sum, &workers[k].committed);
		pthread_mutex_unlock(&workers[k].lock);
	}
	return sum;
}

void report(struct worker *workers, size_t count)
{
	struct counts sum = sum_of(workers, count);
	char codes[TEXT] = "";
	size_t length = 0;
	for (size_t k = 0; k < sum.code_count && length < sizeof codes - 64; k++)
		length += (size_t)snprintf(codes + length, sizeof codes - length, ", rejected with code %llu %llu",
					   (unsigned long long)sum.codes[k].code, (unsigned long long)sum.codes[k].records);
	say(NULL, "so far dead letters %llu, outputs %llu, records %llu, skipped %llu, transactions %llu%s",
	    (unsigned long long)sum.dead, (unsigned long long)sum.outputs, (unsigned long long)sum.records,
	    (unsigned long long)sum.skipped, (unsigned long long)sum.committed, codes);
}

/* Writes the value of a label. */
static void write_label(FILE *file, const char *text)
{
	for (; *text; text++) {
		if (*text == '\n') {
			fputs("\\n", file);
			continue;
		}
		if (*text == '"' || *text == '\\')
			fputc('\\', file);
		fputc(*text, file);
	}
}

/* Writes the name of a metric and the labels that all have. The caller writes more labels, the end and the value. */
static void write_name(FILE *file, const struct options *options, const char *name)
{
	fprintf(file, "%s{group=\"", name);
	write_label(file, options->group);
	fputs("\",member=\"", file);
	write_label(file, options->name);
	fputc('"', file);
}

static void write_head(FILE *file, const char *name, const char *type, const char *help)
{
	fprintf(file, "# HELP %s %s\n# TYPE %s %s\n", name, help, name, type);
}

static void write_count(FILE *file, const struct options *options, const char *name, uint64_t value, const char *help)
{
	write_head(file, name, "counter", help);
	write_name(file, options, name);
	fprintf(file, "} %llu\n", (unsigned long long)value);
}

static void write_codes(FILE *file, const struct options *options, const struct counts *counts)
{
	const char *name = "klog_rejected_total";
	write_head(file, name, "counter", "Records that the program rejected, by its code.");
	for (size_t k = 0; k < counts->code_count; k++) {
		write_name(file, options, name);
		fprintf(file, ",code=\"%llu\"} %llu\n", (unsigned long long)counts->codes[k].code,
			(unsigned long long)counts->codes[k].records);
	}
	if (counts->other_codes) {
		write_name(file, options, name);
		fprintf(file, ",code=\"other\"} %llu\n", (unsigned long long)counts->other_codes);
	}
}

/* Writes how many records of each partition are still to come. One whose first or last offset is not known has no line. */
static void write_lag(FILE *file, const struct options *options, struct worker *worker)
{
	for (size_t k = 0; k < worker->place_count; k++) {
		const struct place *place = &worker->places[k];
		int64_t low, high;
		if (!place->is_assigned || place->committed < 0 ||
		    rd_kafka_get_watermark_offsets(worker->consumer, options->input, (int32_t)k, &low, &high) || high < 0)
			continue;
		int64_t lag = high - place->committed;
		write_name(file, options, "klog_lag");
		fprintf(file, ",partition=\"%zu\"} %lld\n", k, (long long)(lag > 0 ? lag : 0));
	}
}

static void write_all(FILE *file, const struct options *options, struct image *image, struct worker *workers)
{
	struct counts sum = sum_of(workers, options->threads);
	write_count(file, options, "klog_records_total", sum.records, "Records of the input in committed transactions.");
	write_count(file, options, "klog_outputs_total", sum.outputs, "Records that the program emitted in them.");
	write_count(file, options, "klog_dead_letters_total", sum.dead, "Records that went to the topic of dead letters.");
	write_count(file, options, "klog_skipped_total", sum.skipped, "Records that klog could not take and left out.");
	write_count(file, options, "klog_transactions_total", sum.committed, "Committed transactions.");
	write_count(file, options, "klog_aborted_total", sum.aborted, "Transactions that were aborted.");
	write_count(file, options, "klog_refused_files_total", image->refused, "Files of programs that were not taken.");
	write_codes(file, options, &sum);
	write_head(file, "klog_lag", "gauge", "Offsets from the group's next one to the end of a partition.");
	for (size_t k = 0; k < options->threads; k++) {
		pthread_mutex_lock(&workers[k].lock);
		write_lag(file, options, &workers[k]);
		pthread_mutex_unlock(&workers[k].lock);
	}
	write_head(file, "klog_program", "gauge", "The program, by the first digits of its image's SHA-256.");
	write_name(file, options, "klog_program");
	fprintf(file, ",digest=\"%s\"} 1\n", image->digest);
}

void write_metrics(const struct options *options, struct image *image, struct worker *workers)
{
	char part[4096 + 8];
	if (snprintf(part, sizeof part, "%s.part", options->metrics) >= (int)sizeof part) {
		say(NULL, "metrics: the name is too long");
		return;
	}
	FILE *file = fopen(part, "w");
	bool is_done = file != NULL;
	if (file) {
		write_all(file, options, image, workers);
		is_done = !ferror(file);
		is_done = fclose(file) == 0 && is_done;
	}
	if (!is_done || rename(part, options->metrics))
		say(NULL, "metrics: %s: %s", options->metrics, strerror(errno));
}
