/* Computes how strong an acceleration is from its three axes, which are signed 16-bit numbers, the low byte first. Output 0
 * gets the length of the vector as a text, and output 1 the whole record if it is above 2000.
 *
 * acc | hex:030004000c00 -> 0 acc | 13
 * acc | hex:fdff04000c00 -> 0 acc | 13
 * acc | hex:000000000000 -> 0 acc | 0
 * acc | hex:ff7f00000000 -> 0 acc | 32767 + 1 acc | hex:ff7f00000000
 * acc | hex:008000800080 -> 0 acc | 56755 + 1 acc | hex:008000800080
 * acc | hex:0000 -> reject 10 */
#include "klog.h"

#define ALARM 2000

static u32 square_root(u32 number)
{
	u32 root = 0;

	for (u32 bit = 1 << 15; bit > 0; bit >>= 1)
		if ((root + bit) * (root + bit) <= number)
			root += bit;
	return root;
}

u64 transform(const u8 *value, u64 value_length, const u8 *key, u64 key_length, u64 nulls)
{
	if (value_length != 6)
		return 10;

	u32 sum = 0;

	for (int i = 0; i < 6; i += 2) {
		short axis = (short)(value[i] | value[i + 1] << 8);

		sum += (u32)(axis * axis);
	}

	u32 length = square_root(sum), rest = length;
	u8 text[5];
	int first = 5;

	do {
		text[--first] = '0' + rest % 10;
		rest /= 10;
	} while (rest > 0);

	u64 failed = emit_value(0, text + first, 5 - first);

	if (failed == 0 && length > ALARM)
		failed = emit_record(1);
	return failed;
}
