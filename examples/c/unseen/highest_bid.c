/* A value is a number of bids in 1 byte, at most 8, and each as a bidder of 4 bytes and an amount of 8 bytes, little-endian. Emits the
 * bidder of the highest as key, with its amount; of equal ones the first.
 *
 * k | hex:01010000000500000000000000 -> 0 hex:01000000 | hex:0500000000000000
 * k | hex:02010000000500000000000000020000000700000000000000 -> 0 hex:02000000 | hex:0700000000000000
 * k | hex:00 -> nothing
 */
#include "klog.h"

struct bid {
	u32 bidder;
	u64 amount;
} __attribute__((packed));

u64 transform(const u8 *value, u64 value_length, const u8 *key, u64 key_length, u64 nulls)
{
	if (value_length < 1 || value[0] > 8)
		return 1;
	u8 count = value[0];
	if (value_length < 1 + count * sizeof(struct bid))
		return 1;
	if (count == 0)
		return 0;
	const struct bid *bids = (const struct bid *)(value + 1);
	struct bid best = bids[0];
	for (u8 i = 1; i < count; i++)
		if (bids[i].amount > best.amount)
			best = bids[i];
	return emit(0, &best.bidder, 4, &best.amount, 8);
}
