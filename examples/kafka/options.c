/* The words of the command line. */
#include "member.h"
#include <errno.h>
#include <getopt.h>
#include <stdlib.h>
#include <string.h>

static const char USAGE[] =
	"usage: member --servers HOST:PORT --group GROUP --name NAME --image IMAGE --input TOPIC --outputs TOPIC [TOPIC ..]\n"
	"    [--threads N]               threads, each a member of the group by itself: 1 to 64; 1 if not given\n"
	"    [--dead TOPIC]              where records go that klog can't take; else they are skipped\n"
	"    [--dead-code CODE]..        a record that the program rejects with CODE goes there too\n"
	"    [--strict]                  a record that klog can't take ends the process\n"
	"    [--metrics FILE]            text for Prometheus, each five seconds\n"
	"    [--table 2]                 an image's helper table, 1 or 2; 1 if not given\n"
	"    [--records N]               the most of one transaction, 1 to 1,000,000; 50,000 if not given\n"
	"    [--seconds S]               the longest wait for as many; 0.5 if not given\n"
	"    [--set KEY=VALUE]..         a setting of the clients; also --set-consumer and --set-producer\n";

enum word {
	SERVERS = 1, GROUP, NAME, IMAGE, INPUT, OUTPUTS, THREADS, DEAD, DEAD_CODE, STRICT, METRICS, TABLE, RECORDS,
	SECONDS, SET, SET_CONSUMER, SET_PRODUCER, HELP
};

static const struct option WORDS[] = {
	{"servers", required_argument, NULL, SERVERS}, {"group", required_argument, NULL, GROUP},
	{"name", required_argument, NULL, NAME}, {"image", required_argument, NULL, IMAGE},
	{"input", required_argument, NULL, INPUT}, {"outputs", required_argument, NULL, OUTPUTS},
	{"threads", required_argument, NULL, THREADS}, {"dead", required_argument, NULL, DEAD},
	{"dead-code", required_argument, NULL, DEAD_CODE}, {"strict", no_argument, NULL, STRICT},
	{"metrics", required_argument, NULL, METRICS}, {"table", required_argument, NULL, TABLE},
	{"records", required_argument, NULL, RECORDS}, {"seconds", required_argument, NULL, SECONDS},
	{"set", required_argument, NULL, SET}, {"set-consumer", required_argument, NULL, SET_CONSUMER},
	{"set-producer", required_argument, NULL, SET_PRODUCER}, {"help", no_argument, NULL, HELP}, {NULL, 0, NULL, 0}};

static _Noreturn void refuse(const char *what, const char *word)
{
	fprintf(stderr, "member: %s%s\n%s", what, word, USAGE);
	exit(2);
}

/* A number of decimal digits, from `least` to `most`. */
static uint64_t number(const char *what, const char *word, uint64_t least, uint64_t most)
{
	char *end;
	errno = 0;
	uint64_t value = strtoull(word, &end, 10);
	if (word[0] < '0' || word[0] > '9' || *end || errno || value < least || value > most)
		refuse(what, word);
	return value;
}

static int milliseconds(const char *word)
{
	char *end;
	double value = strtod(word, &end);
	if (end == word || *end || !(value >= 0.001 && value <= 60))
		refuse("--seconds is from 0.001 to 60, and not ", word);
	return (int)(value * 1000);
}

static void add_output(struct options *options, const char *topic)
{
	if (options->output_count == MOST_OUTPUTS)
		refuse("64 outputs are the most, and there is one more: ", topic);
	options->outputs[options->output_count++] = topic;
}

static void add_code(struct options *options, const char *word)
{
	if (options->dead_code_count == MOST_CODES)
		refuse("64 codes are the most, and there is one more: ", word);
	options->dead_codes[options->dead_code_count++] =
		number("--dead-code is a number from 1 to 2^64 - 1, and not ", word, 1, UINT64_MAX);
}

static void add_setting(struct options *options, enum client client, const char *word)
{
	const char *sign = strchr(word, '=');
	if (!sign)
		refuse("a setting is KEY=VALUE, and not ", word);
	if (options->setting_count == MOST_SETTINGS)
		refuse("64 settings are the most, and there is one more: ", word);
	char *key = strndup(word, (size_t)(sign - word));
	if (!key)
		refuse("no memory for ", word);
	options->settings[options->setting_count++] = (struct setting){client, key, sign + 1};
}

static void take(struct options *options, int word, const char *value)
{
	switch (word) {
	case SERVERS: options->servers = value; break;
	case GROUP: options->group = value; break;
	case NAME: options->name = value; break;
	case IMAGE: options->image = value; break;
	case INPUT: options->input = value; break;
	case OUTPUTS: add_output(options, value); break;
	case THREADS: options->threads = number("--threads is from 1 to 64, and not ", value, 1, MOST_THREADS); break;
	case DEAD: options->dead = value; break;
	case DEAD_CODE: add_code(options, value); break;
	case STRICT: options->is_strict = true; break;
	case METRICS: options->metrics = value; break;
	case TABLE: options->table = (uint32_t)number("--table is 1 or 2, and not ", value, 1, 2); break;
	case RECORDS: options->records = number("--records is from 1 to 1000000, and not ", value, 1, 1000000); break;
	case SECONDS: options->milliseconds = milliseconds(value); break;
	case SET: add_setting(options, BOTH, value); break;
	case SET_CONSUMER: add_setting(options, CONSUMER, value); break;
	case SET_PRODUCER: add_setting(options, PRODUCER, value); break;
	case HELP: fputs(USAGE, stdout); exit(0);
	default: fputs(USAGE, stderr); exit(2);
	}
}

void read_options(int argc, char **argv, struct options *options)
{
	*options = (struct options){.table = KLOG_TABLE_OWN, .threads = 1, .records = 50000, .milliseconds = 500};
	int word;
	while ((word = getopt_long(argc, argv, "", WORDS, NULL)) != -1)
		take(options, word, optarg);
	for (; optind < argc; optind++) {
		if (options->output_count == 0)
			refuse("there is no option before ", argv[optind]);
		add_output(options, argv[optind]);
	}
	const char *needed[] = {options->servers, options->group, options->name, options->image, options->input};
	for (size_t k = 0; k < sizeof needed / sizeof needed[0]; k++)
		if (!needed[k])
			refuse("an option is missing: --", WORDS[k].name);
	if (options->output_count == 0)
		refuse("an option is missing: --", "outputs");
	if (options->dead_code_count && !options->dead)
		refuse("--dead-code is given, and no topic by --dead", "");
	if (options->dead && options->is_strict)
		refuse("--dead and --strict exclude each other", "");
}
