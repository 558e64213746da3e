/* A key and a value are texts. Emits to output 1 how many bytes they have in common at the beginning and at the end, each as one byte;
 * texts that are the same go to output 0. Both have at most 48 bytes.
 *
 * abcdef | abXdef -> 1 abcdef | hex:0203
 * abc | abc -> 0 abc | abc
 * abab | ab -> 1 abab | hex:0200
 * x | y -> 1 x | hex:0000
 */
#include "klog.h"

u64 transform(const u8 *value, u64 value_length, const u8 *key, u64 key_length, u64 nulls)
{
	if (key_length > 48 || value_length > 48)
		return 1;
	if (key_length == value_length && memcmp(key, value, key_length) == 0)
		return emit_record(0);
	u64 shorter = key_length < value_length ? key_length : value_length;
	u64 head = 0, tail = 0;
	while (head < shorter && key[head] == value[head])
		head++;
	while (head + tail < shorter && key[key_length - 1 - tail] == value[value_length - 1 - tail])
		tail++;
	u8 out[2] = {head, tail};
	return emit_value(1, out, 2);
}
