/* A value is a line of syslog, which begins with its priority, as <34>. Sends it to the output of its severity, from 0 to 7, which is
 * the priority modulo 8; a priority is at most 191.
 *
 * k | <34>Oct 11 22:14:15 host su: failed -> 2 k | <34>Oct 11 22:14:15 host su: failed
 * k | <0>x -> 0 k | <0>x
 * k | <191>x -> 7 k | <191>x
 * k | <192>x -> reject 10
 * k | <>x -> reject 10
 * k | 34>x -> reject 10
 * k | <1234 -> reject 10
 * k | null -> reject 10 */
#include "klog.h"

static int is_digit(u8 c)
{
	return c >= '0' && c <= '9';
}

u64 transform(const u8 *value, u64 value_length, const u8 *key, u64 key_length, u64 nulls)
{
	u32 priority = 0;
	u64 at = 1;

	if (value_length == 0 || value[0] != '<')
		return 10;
	while (at < value_length && at < 4 && is_digit(value[at])) {
		priority = priority * 10 + (value[at] - '0');
		at++;
	}
	if (at == 1 || at >= value_length || value[at] != '>' || priority > 191)
		return 10;
	return emit_record(priority % 8);
}
