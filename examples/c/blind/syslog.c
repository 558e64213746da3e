/* Takes the number in angle brackets from the begin of a syslog line and routes by it: what is about logins (facilities 4 and 10) to
 * output 2, other errors to 1, and the rest to 0, with the severity's name as a header. Lines for debugging are rejected with 20, and
 * lines that don't begin with a number from 0 to 191 with 10.
 *
 * k | <34>su failed -> 2 k | su failed
 * k | <11>disk full -> 1 k | disk full
 * k | <165>link up -> 0 k | link up
 * k | <15>verbose -> reject 20
 * k | <192>x -> reject 10
 * k | <0013>x -> reject 10
 * k | <>x -> reject 10
 * k | plain -> reject 10 */
#include "klog_parts.h"

enum { EMERGENCY, ALERT, CRITICAL, ERROR, WARNING, NOTICE, INFO, DEBUG };

enum { AUTH = 4, AUTHPRIV = 10 };

static const char *const names[] = {"emerg", "alert", "crit", "err", "warning", "notice", "info", "debug"};

u64 transform(const u8 *value, u64 value_length, const u8 *key, u64 key_length, u64 nulls)
{
	u64 at = 1;
	unsigned priority = 0;

	if (value_length < 3 || value[0] != '<')
		return 10;
	for (; at < value_length && at <= 3 && value[at] >= '0' && value[at] <= '9'; at++)
		priority = priority * 10 + value[at] - '0';
	if (at == 1 || at == value_length || value[at] != '>' || priority > 191)
		return 10;
	at++;

	unsigned facility = priority / 8, severity = priority % 8;
	u64 output;

	if (severity == DEBUG)
		return 20;
	if (facility == AUTH || facility == AUTHPRIV)
		output = 2;
	else
		output = severity <= ERROR ? 1 : 0;

	const char *name = names[severity];

	if (add_header("severity", 8, name, strlen(name)))
		return 11;
	return emit_part(output, VALUE, at, value_length - at);
}
