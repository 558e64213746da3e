/* A value is a name of the DNS: labels of up to 63 bytes, each with its length before it, and a length of 0 at the end. Gives the record
 * the name with dots as key. A name of more than 100 bytes is rejected.
 *
 * k | hex:03777777076578616d706c65036f726700 -> 0 www.example.org | hex:03777777076578616d706c65036f726700
 * k | hex:016100 -> 0 a | hex:016100
 * k | hex:00 -> 0 . | hex:00
 * k | hex:0361 -> reject 1
 * k | hex:c00c -> reject 2
 * k | hex:0161 -> reject 1 */
#include "klog.h"

u64 transform(const u8 *value, u64 value_length, const u8 *key, u64 key_length, u64 nulls)
{
	u8 name[100];
	u64 length = 0, at = 0;

	while (at < value_length) {
		u8 n = value[at++];

		if (n == 0) {
			if (length == 0)
				name[length++] = '.';
			return emit(0, name, length, value, value_length);
		}
		if (n > 63)
			return 2;
		if (at + n > value_length)
			return 1;
		if (length + n + 1 > sizeof(name))
			return 3;
		if (length > 0)
			name[length++] = '.';
		memcpy(name + length, value + at, n);
		length += n;
		at += n;
	}
	return 1;
}
