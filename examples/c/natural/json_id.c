/* Finds "id": in a JSON value of up to 128 bytes, and gives the record the number after it as key.
 *
 * k | {"id":4711,"a":1} -> 0 4711 | {"id":4711,"a":1}
 * k | {"a":1,"id":7} -> 0 7 | {"a":1,"id":7}
 * k | {"a":1} -> reject 1
 * k | {"id":"x"} -> reject 2 */
#include "klog.h"

u64 transform(const u8 *value, u64 value_length, const u8 *key, u64 key_length, u64 nulls)
{
	u64 at;

	for (at = 0; at < 128; at++) {
		if (at + 5 > value_length)
			return 1;
		if (!memcmp(value + at, "\"id\":", 5))
			break;
	}
	if (at == 128)
		return 1;
	at += 5;
	u64 end = at;
	while (end < value_length && value[end] >= '0' && value[end] <= '9' && end - at < 20)
		end++;
	if (end == at)
		return 2;
	return emit(0, value + at, end - at, value, value_length);
}
