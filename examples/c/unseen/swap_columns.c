/* Exchanges the first two columns of a line of comma-separated values of up to 100 bytes.
 *
 * k | a,bc,d -> 0 k | bc,a,d
 * k | a,b -> 0 k | b,a
 * k | ,x,,y -> 0 k | x,,,y
 * k | abc -> reject 1 */
#include "klog.h"

u64 transform(const u8 *value, u64 value_length, const u8 *key, u64 key_length, u64 nulls)
{
	u8 line[100];
	u64 first = 0, second, n = 0;

	if (value_length > 100)
		return 2;
	while (first < value_length && value[first] != ',')
		first++;
	if (first == value_length)
		return 1;
	second = first + 1;
	while (second < value_length && value[second] != ',')
		second++;

	for (u64 i = first + 1; i < second; i++)
		line[n++] = value[i];
	line[n++] = ',';
	for (u64 i = 0; i < first; i++)
		line[n++] = value[i];
	for (u64 i = second; i < value_length; i++)
		line[n++] = value[i];
	return emit_value(0, line, n);
}
