/* Checks the header checksum of a captured IPv4 packet and routes it by its protocol: TCP to output 0, UDP to 1, others to 2.
 *
 * tap | hex:45000073000040004011b861c0a80001c0a800c7 -> 1 tap | hex:45000073000040004011b861c0a80001c0a800c7
 * tap | hex:45000073000040004006b86cc0a80001c0a800c7 -> 0 tap | hex:45000073000040004006b86cc0a80001c0a800c7
 * tap | hex:45000073000040004001b871c0a80001c0a800c7 -> 2 tap | hex:45000073000040004001b871c0a80001c0a800c7
 * tap | hex:45000073000040004011b862c0a80001c0a800c7 -> reject 81
 * tap | hex:45000073 -> reject 80
 * tap | hex:46000073000040004011b861c0a80001c0a800c7 -> reject 80 */
#include "klog.h"

static int checksum_is_right(const u8 *bytes, u64 length)
{
	u32 sum = 0;

	for (u64 i = 0; i + 1 < length; i += 2)
		sum += bytes[i] << 8 | bytes[i + 1];
	while (sum >> 16)
		sum = (sum & 0xffff) + (sum >> 16);
	return sum == 0xffff;
}

u64 transform(const u8 *value, u64 value_length, const u8 *key, u64 key_length, u64 nulls)
{
	if (value_length < 20 || value[0] >> 4 != 4)
		return 80;

	u64 length = (value[0] & 15) * 4;

	if (length < 20 || length > value_length)
		return 80;
	if (!checksum_is_right(value, length))
		return 81;

	switch (value[9]) {
	case 6:
		return emit_record(0);
	case 17:
		return emit_record(1);
	default:
		return emit_record(2);
	}
}
