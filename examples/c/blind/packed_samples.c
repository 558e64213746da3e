/* Unpacks a sensor's readings: four bits of the sensor's number, four of how many readings there are, and the readings of twelve bits
 * each, signed, the highest bit first; the last byte is filled up. Emits them as text. A wrong length is rejected with 10.
 *
 * k | qab -> 0 k | sensor 7: 1558
 * k | rabc -> 0 k | sensor 7: 1558 611
 * k | sabcde -> 0 k | sensor 7: 1558 611 1606
 * k | \x12\x7f\xf8\x00 -> 0 k | sensor 1: 2047 -2048
 * k | \xe1\xff\xf0 -> 0 k | sensor 14: -1
 * k | rab -> reject 10
 * k | -> reject 10 */
#include "klog.h"

#define BITS 12
#define MOST 15

struct bits {
	const u8 *next;
	u32 held;
	int count;
};

static int read_signed(struct bits *b, int bits)
{
	while (b->count < bits) {
		b->held = b->held << 8 | *b->next++;
		b->count += 8;
	}
	b->count -= bits;

	int number = b->held >> b->count & ((1 << bits) - 1), sign = 1 << (bits - 1);

	return (number ^ sign) - sign;
}

static char *put_int(char *out, int number)
{
	unsigned rest = number < 0 ? -number : number, power = 1;

	if (number < 0)
		*out++ = '-';
	while (rest / power >= 10)
		power *= 10;
	for (; power > 0; power /= 10)
		*out++ = '0' + rest / power % 10;
	return out;
}

u64 transform(const u8 *value, u64 value_length, const u8 *key, u64 key_length, u64 nulls)
{
	char text[11 + MOST * 6] = "sensor ", *end = text + 7;

	if (value_length < 1)
		return 10;

	int sensor = value[0] >> 4, count = value[0] & 15;

	if (value_length != 1 + (count * BITS + 7u) / 8)
		return 10;

	struct bits b = {value + 1, 0, 0};

	end = put_int(end, sensor);
	*end++ = ':';
	for (int i = 0; i < count; i++) {
		*end++ = ' ';
		end = put_int(end, read_signed(&b, BITS));
	}
	return emit_value(0, text, end - text);
}
