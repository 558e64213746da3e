/* A value is up to 64 bytes of varints, each of up to 10 bytes. Emits how many they are and the largest of them, as 1 and 8 bytes,
 * big-endian; a value that ends within one is rejected.
 *
 * k | hex:0196017f -> 0 k | hex:030000000000000096
 * k | null -> 0 k | hex:000000000000000000
 * k | hex:8080 -> reject 11
 * k | hex:808080808080808080808001 -> reject 12
 * k | a*65 -> reject 10 */
#include "klog.h"

u64 transform(const u8 *value, u64 value_length, const u8 *key, u64 key_length, u64 nulls)
{
	u64 count = 0, largest = 0, number = 0;
	int shift = 0;

	if (value_length > 64)
		return 10;
	for (u64 i = 0; i < value_length; i++) {
		if (shift > 63)
			return 12;
		number |= (u64)(value[i] & 0x7f) << shift;
		if (value[i] & 0x80) {
			shift += 7;
			continue;
		}
		count++;
		if (number > largest)
			largest = number;
		number = 0;
		shift = 0;
	}
	if (shift)
		return 11;

	u8 out[9];

	out[0] = count;
	for (int i = 0; i < 8; i++)
		out[8 - i] = largest >> 8 * i;
	return emit_value(0, out, sizeof out);
}
