/* A value is a series of at most 16 differences, as zigzag varints of protocol buffers. Emits their running sums as decimal text with
 * commas. An empty value or one of more differences is rejected with 10, a varint that is cut off or too long with 11.
 *
 * k | B -> 0 k | 33
 * k | BB -> 0 k | 33,66
 * k | AB -> 0 k | -33,0
 * k | \xac\x02\x01 -> 0 k | 150,149
 * k | \x00 -> 0 k | 0
 * k | B\x80 -> reject 11
 * k | -> reject 10 */
#include "klog.h"

#define MOST 16

typedef long long i64;

struct reader {
	const u8 *at, *end;
};

static int read_varint(struct reader *r, u64 *result)
{
	u64 number = 0;

	for (int shift = 0; shift < 64; shift += 7) {
		if (r->at == r->end)
			return 0;

		u8 byte = *r->at++;

		number |= (u64)(byte & 0x7f) << shift;
		if (!(byte & 0x80)) {
			*result = number;
			return 1;
		}
	}
	return 0;
}

static u64 put_signed(char *out, i64 number)
{
	char digits[20];
	u64 n = 0, length = 0;
	u64 rest = number < 0 ? -(u64)number : (u64)number;

	if (number < 0)
		out[length++] = '-';
	do {
		digits[n++] = '0' + rest % 10;
		rest /= 10;
	} while (rest > 0);
	while (n > 0)
		out[length++] = digits[--n];
	return length;
}

u64 transform(const u8 *value, u64 value_length, const u8 *key, u64 key_length, u64 nulls)
{
	struct reader r = {value, value + value_length};
	char text[MOST * 21];
	u64 length = 0, sum = 0, zigzag;

	if (value_length == 0)
		return 10;
	for (int i = 0; r.at < r.end; i++) {
		if (i == MOST)
			return 10;
		if (!read_varint(&r, &zigzag))
			return 11;
		sum += (zigzag >> 1) ^ -(zigzag & 1);
		if (i > 0)
			text[length++] = ',';
		length += put_signed(text + length, (i64)sum);
	}
	return emit_value(0, text, length);
}
