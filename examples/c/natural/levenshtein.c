/* A key and a value are words of up to 8 letters. Emits how many letters have to be changed, put in or taken out to make one of the
 * other, as one digit.
 *
 * kitten | sitting -> 0 kitten | 3
 * a | a -> 0 a | 0
 * null | abc -> 0 null | 3
 * abcdefghi | a -> reject 10 */
#include "klog.h"

u64 transform(const u8 *value, u64 value_length, const u8 *key, u64 key_length, u64 nulls)
{
	u8 row[9], digit;

	if (value_length > 8 || key_length > 8)
		return 10;
	for (u64 j = 0; j <= value_length; j++)
		row[j] = j;
	for (u64 i = 0; i < key_length; i++) {
		u8 corner = row[0];

		row[0] = i + 1;
		for (u64 j = 0; j < value_length; j++) {
			u8 best = corner + (key[i] != value[j]);

			if (row[j] + 1 < best)
				best = row[j] + 1;
			if (row[j + 1] + 1 < best)
				best = row[j + 1] + 1;
			corner = row[j + 1];
			row[j + 1] = best;
		}
	}
	digit = '0' + row[value_length];
	return emit_value(0, &digit, 1);
}
