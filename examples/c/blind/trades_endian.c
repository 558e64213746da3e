/* Turns 1 to 16 trades from the exchange's byte order, the high byte first, to ours, the low byte first: two bytes of the instrument,
 * four of the price and eight of the quantity. Another length is rejected with 10, a trade of nothing with 11.
 *
 * k | abcdefghijklmn -> 0 k | bafedcnmlkjihg
 * k | abcdefghijklmnABCDEFGHIJKLMN -> 0 k | bafedcnmlkjihgBAFEDCNMLKJIHG
 * k | abcdef\x00\x00\x00\x00\x00\x00\x00\x00 -> reject 11
 * k | abcdefghijklm -> reject 10
 * k | -> reject 10 */
#include "klog.h"

#define MOST 16

struct trade {
	u16 instrument;
	u32 price;
	u64 quantity;
} __attribute__((packed));

u64 transform(const u8 *value, u64 value_length, const u8 *key, u64 key_length, u64 nulls)
{
	struct trade trades[MOST];
	u64 count = value_length / sizeof(struct trade);

	if (value_length % sizeof(struct trade) != 0 || count == 0 || count > MOST)
		return 10;
	memcpy(trades, value, value_length);
	for (u64 i = 0; i < count; i++) {
		struct trade *t = &trades[i];

		if (t->quantity == 0)
			return 11;
		t->instrument = __builtin_bswap16(t->instrument);
		t->price = __builtin_bswap32(t->price);
		t->quantity = __builtin_bswap64(t->quantity);
	}
	return emit_value(0, trades, value_length);
}
