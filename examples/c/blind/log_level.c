/* Routes logfmt lines by their level: errors to output 2, warnings to 1, all else to 0. Lines for debugging are rejected with 20, as
 * nobody reads them, and lines whose level is missing or unknown with 10.
 *
 * k | level=info msg=started -> 0 k | level=info msg=started
 * k | ts=12 level=warn msg=slow -> 1 k | ts=12 level=warn msg=slow
 * k | ts=12 msg=gone level=fatal -> 2 k | ts=12 msg=gone level=fatal
 * k | level=debug msg=x -> reject 20
 * k | loglevel=info -> reject 10
 * k | level=infos msg=x -> reject 10
 * k | level=warnings msg=x -> reject 10 */
#include "klog_parts.h"

enum { DEBUG, INFO, WARNING, ERROR };

static const struct {
	char name[8];
	int severity;
} levels[] = {
	{"trace", DEBUG},  {"debug", DEBUG},     {"info", INFO},   {"notice", INFO},
	{"warn", WARNING}, {"warning", WARNING}, {"error", ERROR}, {"fatal", ERROR},
};

static int severity_of(const char *name)
{
	for (size_t i = 0; i < sizeof levels / sizeof levels[0]; i++)
		if (strcmp(name, levels[i].name) == 0)
			return levels[i].severity;
	return -1;
}

u64 transform(const u8 *value, u64 value_length, const u8 *key, u64 key_length, u64 nulls)
{
	char name[8];
	u64 at = 0, n = 0;

	if (!starts_with(VALUE, "level=")) {
		at = find(VALUE, 0, " level=", 7);
		if (at == 0)
			return 10;
	}
	at += 6;
	while (at < value_length && value[at] != ' ' && n < sizeof name - 1)
		name[n++] = value[at++];
	if (at < value_length && value[at] != ' ')
		return 10;
	name[n] = '\0';

	switch (severity_of(name)) {
	case DEBUG:
		return 20;
	case INFO:
		return emit_record(0);
	case WARNING:
		return emit_record(1);
	case ERROR:
		return emit_record(2);
	default:
		return 10;
	}
}
