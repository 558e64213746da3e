/* A value is up to 10 lines of two numbers with a tab between them. Emits the sum of the second numbers as 8 bytes, little-endian.
 *
 * k | 1\t10\n2\t20\n -> 0 k | hex:1e00000000000000
 * k | 1\t5 -> 0 k | hex:0500000000000000
 * k | 1 -> reject 1
 * k | 1\tx -> reject 2
 */
#include "klog.h"

struct cursor {
	const u8 *p;
	const u8 *end;
};

static int parse_number(struct cursor *c, u64 *number)
{
	u64 n = 0;
	int digits = 0;

	while (c->p < c->end && *c->p >= '0' && *c->p <= '9') {
		n = n * 10 + *c->p++ - '0';
		if (++digits > 9)
			return 0;
	}
	*number = n;
	return digits;
}

u64 transform(const u8 *value, u64 value_length, const u8 *key, u64 key_length, u64 nulls)
{
	struct cursor c = {value, value + value_length};
	u64 sum = 0;

	for (int line = 0; line < 10 && c.p < c.end; line++) {
		u64 id, amount;
		if (!parse_number(&c, &id) || c.p == c.end || *c.p++ != '\t')
			return 1;
		if (!parse_number(&c, &amount))
			return 2;
		sum += amount;
		if (c.p < c.end && *c.p++ != '\n')
			return 3;
	}
	return emit_value(0, &sum, sizeof sum);
}
