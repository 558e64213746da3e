/* A value is two big-endian numbers of 4 and 8 bytes. Emits them little-endian.
 *
 * k | \0\0\1\2\0\0\0\0\0\0\0\7 -> 0 k | \2\1\0\0\7\0\0\0\0\0\0\0
 * k | \0\0\1 -> reject 1 */
#include "klog.h"

u64 transform(const u8 *value, u64 value_length, const u8 *key, u64 key_length, u64 nulls)
{
	struct {
		u32 id;
		u64 amount;
	} __attribute__((packed)) row;

	if (value_length != sizeof row)
		return 1;
	row.id = __builtin_bswap32(*(const u32 *)value);
	row.amount = __builtin_bswap64(*(const u64 *)(value + 4));
	return emit_value(0, &row, sizeof row);
}
