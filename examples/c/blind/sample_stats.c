/* A value is 1 to 64 samples of sixteen bits, signed, the low byte first. Emits the least, the greatest and the mean, which is cut to a
 * whole number, to output 0, or to output 1 where they differ by over 10,000. Another length is rejected with 10.
 *
 * k | abcd -> 0 k | min=25185 max=25699 mean=25442
 * k | !! -> 0 k | min=8481 max=8481 mean=8481
 * k | \xff\xff\x01\x00 -> 0 k | min=-1 max=1 mean=0
 * k | \x00\x80\xff\x7f -> 1 k | min=-32768 max=32767 mean=0
 * k | \xfd\xff\xfc\xff -> 0 k | min=-4 max=-3 mean=-3
 * k | abc -> reject 10
 * k | -> reject 10 */
#include "klog.h"

#define MOST 64

typedef short i16;

struct text {
	char bytes[48];
	u64 length;
};

static void put_text(struct text *t, const char *text)
{
	u64 length = strlen(text);

	memcpy(t->bytes + t->length, text, length);
	t->length += length;
}

static void put_int(struct text *t, int number)
{
	char digits[10];
	int n = 0;
	unsigned rest = number < 0 ? -(unsigned)number : (unsigned)number;

	if (number < 0)
		t->bytes[t->length++] = '-';
	do {
		digits[n++] = '0' + rest % 10;
		rest /= 10;
	} while (rest > 0);
	while (n > 0)
		t->bytes[t->length++] = digits[--n];
}

u64 transform(const u8 *value, u64 value_length, const u8 *key, u64 key_length, u64 nulls)
{
	struct text report = {.length = 0};
	int least = 32767, greatest = -32768, sum = 0;
	int count = value_length / 2;

	if (value_length < 2 || value_length > 2 * MOST || value_length % 2 != 0)
		return 10;
	for (int i = 0; i < count; i++) {
		i16 sample = value[2 * i] | value[2 * i + 1] << 8;

		if (sample < least)
			least = sample;
		if (sample > greatest)
			greatest = sample;
		sum += sample;
	}
	put_text(&report, "min=");
	put_int(&report, least);
	put_text(&report, " max=");
	put_int(&report, greatest);
	put_text(&report, " mean=");
	put_int(&report, sum / count);
	return emit_value(greatest - least > 10000, report.bytes, report.length);
}
