/* Puts the bids of an order book in order, the highest price first, and adds up those of one price. A bid is a price and a quantity, both
 * numbers of four bytes, the low one first; there are one to eight bids.
 *
 * k | \x01\x00\x00\x00\x0a\x00\x00\x00\x02\x00\x00\x00\x05\x00\x00\x00 -> 0 k | \x02\x00\x00\x00\x05\x00\x00\x00\x01\x00\x00\x00\x0a\x00\x00\x00
 * k | \x07\x00\x00\x00\x01\x00\x00\x00\x07\x00\x00\x00\x02\x00\x00\x00 -> 0 k | \x07\x00\x00\x00\x03\x00\x00\x00
 * k | \x00\x01\x00\x00\x04\x00\x00\x00 -> 0 k | \x00\x01\x00\x00\x04\x00\x00\x00
 * k | \x07\x00\x00\x00\xff\xff\xff\xff\x07\x00\x00\x00\x02\x00\x00\x00 -> reject 11
 * k | abc -> reject 10
 * k | -> reject 10 */
#include "klog.h"

#define MOST 8

struct bid {
	u32 price, quantity;
};

static void sort(struct bid *bids, u64 count)
{
	for (u64 i = 1; i < count; i++) {
		struct bid bid = bids[i];
		u64 j = i;

		while (j > 0 && bids[j - 1].price < bid.price) {
			bids[j] = bids[j - 1];
			j--;
		}
		bids[j] = bid;
	}
}

u64 transform(const u8 *value, u64 value_length, const u8 *key, u64 key_length, u64 nulls)
{
	struct bid bids[MOST];
	u64 count = value_length / sizeof(struct bid), kept = 0;

	if (count == 0 || count > MOST || value_length % sizeof(struct bid) != 0)
		return 10;
	load_value(bids, 0, value_length);
	sort(bids, count);

	for (u64 i = 1; i < count; i++) {
		if (bids[i].price != bids[kept].price) {
			bids[++kept] = bids[i];
			continue;
		}

		u32 sum = bids[kept].quantity + bids[i].quantity;

		if (sum < bids[i].quantity)
			return 11;
		bids[kept].quantity = sum;
	}
	return emit_value(0, bids, (kept + 1) * sizeof(struct bid));
}
