/* The first four bytes of a value of up to 104 bytes are a mask, and what follows was masked with it, as in a WebSocket. Emits what was
 * there before.
 *
 * k | hex:01020304686660 -> 0 k | idc
 * k | hex:01020304 -> 0 k | hex:
 * k | hex:ffffffff0102030405 -> 0 k | hex:fefdfcfbfa
 * k | hex:010203 -> reject 10 */
#include "klog.h"

u64 transform(const u8 *value, u64 value_length, const u8 *key, u64 key_length, u64 nulls)
{
	u8 plain[100];

	if (value_length < 4 || value_length > 4 + sizeof plain)
		return 10;

	const u8 *mask = value;
	const u8 *payload = value + 4;
	u64 length = value_length - 4;

	for (u64 i = 0; i < length; i++)
		plain[i] = payload[i] ^ mask[i % 4];
	return emit_value(0, plain, length);
}
