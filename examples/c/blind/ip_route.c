/* Routes lines of an access log by the IPv4 address at their begin: private networks to output 0, public addresses to 1, this host and
 * the link to 2. A line that doesn't begin with an address and a space is rejected with 10.
 *
 * k | 10.1.2.3 GET / -> 0 k | 10.1.2.3 GET /
 * k | 172.31.255.255 GET / -> 0 k | 172.31.255.255 GET /
 * k | 172.32.0.1 GET / -> 1 k | 172.32.0.1 GET /
 * k | 127.0.0.1 HEAD / -> 2 k | 127.0.0.1 HEAD /
 * k | 300.1.1.1 GET / -> reject 10
 * k | 8.8.8 GET / -> reject 10
 * k | 8.8.8.8 -> reject 10 */
#include "klog.h"

#define ADDRESS(a, b, c, d) ((u32)(a) << 24 | (u32)(b) << 16 | (u32)(c) << 8 | (u32)(d))

static const struct network {
	u32 address;
	u8 bits, output;
} networks[] = {
	{ADDRESS(10, 0, 0, 0), 8, 0},  {ADDRESS(172, 16, 0, 0), 12, 0},  {ADDRESS(192, 168, 0, 0), 16, 0},
	{ADDRESS(127, 0, 0, 0), 8, 2}, {ADDRESS(169, 254, 0, 0), 16, 2},
};

/* How many bytes of a text are an address, 0 if it doesn't begin with one. */
static u64 parse_address(const u8 *text, u64 length, u32 *address)
{
	u64 at = 0;

	*address = 0;
	for (int part = 0; part < 4; part++) {
		unsigned number = 0;
		int digits = 0;

		if (part > 0 && (at == length || text[at++] != '.'))
			return 0;
		while (at < length && digits < 3 && text[at] >= '0' && text[at] <= '9') {
			number = number * 10 + (text[at++] - '0');
			digits++;
		}
		if (digits == 0 || number > 255)
			return 0;
		*address = *address << 8 | number;
	}
	return at;
}

u64 transform(const u8 *value, u64 value_length, const u8 *key, u64 key_length, u64 nulls)
{
	u32 address;
	u64 end = parse_address(value, value_length, &address);

	if (end == 0 || end == value_length || value[end] != ' ')
		return 10;
	for (size_t i = 0; i < sizeof networks / sizeof *networks; i++) {
		const struct network *n = &networks[i];

		if ((address ^ n->address) >> (32 - n->bits) == 0)
			return emit_record(n->output);
	}
	return emit_record(1);
}
