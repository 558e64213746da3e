/* Routes messages by their key, an MQTT topic: the output is the position of the first filter of a table that matches, with + for one
 * level and # for all that follow, or the one after them where none does.
 *
 * plant/a/temp | 5 -> 0 plant/a/temp | 5
 * plant/a/b/c | x -> 1 plant/a/b/c | x
 * plant | up -> 1 plant | up
 * fleet/7/x/gps | p -> 2 fleet/7/x/gps | p
 * fleet/7/gps | p -> 3 fleet/7/gps | p
 * plants/a/temp | 5 -> 3 plants/a/temp | 5
 * null | x -> reject 10 */
#include "klog.h"

#define MOST 48

static const char filters[][16] = {"plant/+/temp", "plant/#", "fleet/+/+/gps"};

#define FILTERS (sizeof filters / sizeof filters[0])

static int matches(const char *filter, const u8 *topic, u64 length)
{
	u64 at = 0;

	for (; *filter != 0; filter++) {
		switch (*filter) {
		case '#':
			return 1;
		case '+':
			while (at < length && topic[at] != '/')
				at++;
			break;
		default:
			/* plant/# matches plant too. */
			if (at == length)
				return strcmp(filter, "/#") == 0;
			if (topic[at] != *filter)
				return 0;
			at++;
		}
	}
	return at == length;
}

u64 transform(const u8 *value, u64 value_length, const u8 *key, u64 key_length, u64 nulls)
{
	u64 output = 0;

	if (key_length == 0 || key_length > MOST)
		return 10;
	while (output < FILTERS && !matches(filters[output], key, key_length))
		output++;
	return emit_record(output);
}
