/* Emits a JSON line of a sensor's number and a level, of a byte each, as three digits.
 *
 * k | \7\300 -> 0 k | {"sensor":"007","level":"192"}\n
 * k | \7 -> reject 1 */
#include "klog.h"

static inline void digits(u8 *text, u8 number)
{
	text[0] = '0' + number / 100;
	text[1] = '0' + number / 10 % 10;
	text[2] = '0' + number % 10;
}

u64 transform(const u8 *value, u64 value_length, const u8 *key, u64 key_length, u64 nulls)
{
	u8 line[] = "{\"sensor\":\"000\",\"level\":\"000\"}\n";

	if (value_length < 2)
		return 1;
	digits(line + 11, value[0]);
	digits(line + 25, value[1]);
	return emit_value(0, line, sizeof line - 1);
}
