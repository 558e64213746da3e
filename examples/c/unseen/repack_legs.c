/* A value is a trade as it comes from the wire, big-endian: an id of 8 bytes, a number of legs of 2 bytes (1 to 4), and for each an
 * instrument of 4 bytes, a quantity of 4 bytes, signed, and a price of 2 bytes. Emits it little-endian, with the sum of the
 * quantities after the id.
 *
 * k | hex:0000000000000001000100000002ffffffff0003 -> 0 k | hex:0100000000000000ffffffffffffffff010002000000ffffffff0300
 * k | hex:00000000000000010003 -> reject 70
 * k | hex:00000000000000010000 -> reject 71
 */
#include "klog.h"

struct leg {
	u32 instrument;
	int quantity;
	u16 price;
} __attribute__((packed));

struct trade {
	u64 id;
	u16 legs;
	struct leg leg[4];
} __attribute__((packed));

struct repacked {
	u64 id;
	long long sum;
	u16 legs;
	struct leg leg[4];
} __attribute__((packed));

u64 transform(const u8 *value, u64 value_length, const u8 *key, u64 key_length, u64 nulls)
{
	const struct trade *in = (const struct trade *)value;
	struct repacked out;

	if (value_length < 10)
		return 70;
	u16 legs = __builtin_bswap16(in->legs);
	if (legs < 1 || legs > 4)
		return 71;
	if (value_length != 10 + legs * sizeof(struct leg))
		return 70;
	out.id = __builtin_bswap64(in->id);
	out.legs = legs;
	out.sum = 0;
	for (int i = 0; i < legs; i++) {
		out.leg[i].instrument = __builtin_bswap32(in->leg[i].instrument);
		out.leg[i].quantity = (int)__builtin_bswap32(in->leg[i].quantity);
		out.leg[i].price = __builtin_bswap16(in->leg[i].price);
		out.sum += out.leg[i].quantity;
	}
	return emit_value(0, &out, 18 + legs * sizeof(struct leg));
}
