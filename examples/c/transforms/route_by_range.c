/* Routes by a price at bytes 4 to 7, big-endian: to 0 below 1000, to 1 below 10000, else to 2.
 *
 * k | item\0\0\3\347 -> 0 k | item\0\0\3\347
 * k | item\0\0\3\350 -> 1 k | item\0\0\3\350
 * k | item\0\0\47\20 -> 2 k | item\0\0\47\20
 * k | item -> reject 1 */
#include "klog.h"

u64 transform(const u8 *value, u64 value_length, const u8 *key, u64 key_length, u64 nulls)
{
	u32 price;

	if (value_length < 8)
		return 1;
	price = __builtin_bswap32(*(const u32 *)(value + 4));
	if (price < 1000)
		return emit_record(0);
	if (price < 10000)
		return emit_record(1);
	return emit_record(2);
}
