/* A key is an IPv4 address of 4 bytes. Routes the record by the first network of a list that has it; those of none go to output 0.
 *
 * hex:0a010203 | v -> 1 hex:0a010203 | v
 * hex:c0a80a01 | v -> 2 hex:c0a80a01 | v
 * hex:ac1f0001 | v -> 3 hex:ac1f0001 | v
 * hex:ac200001 | v -> 0 hex:ac200001 | v
 * hex:08080808 | v -> 0 hex:08080808 | v
 * abc | v -> reject 1 */
#include "klog.h"

struct network {
	u32 address;
	u8 bits;
	u8 output;
};

static const struct network networks[] = {
	{0x0a000000, 8, 1},
	{0xc0a80000, 16, 2},
	{0xac100000, 12, 3},
	{0x7f000000, 8, 4},
};

u64 transform(const u8 *value, u64 value_length, const u8 *key, u64 key_length, u64 nulls)
{
	if (key_length != 4)
		return 1;

	u32 address = (u32)key[0] << 24 | key[1] << 16 | key[2] << 8 | key[3];

	for (u64 i = 0; i < sizeof(networks) / sizeof(networks[0]); i++) {
		u32 mask = 0xffffffff << (32 - networks[i].bits);

		if ((address & mask) == networks[i].address)
			return emit_record(networks[i].output);
	}
	return emit_record(0);
}
