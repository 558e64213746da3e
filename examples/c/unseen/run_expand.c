/* A value is up to 16 runs: a count of 1 byte, and the byte. Emits the bytes; more than 200 are rejected.
 *
 * k | hex:03610162 -> 0 k | aaab
 * k | hex:0061 -> 0 k |
 * k | -> 0 k |
 * k | hex:036101 -> reject 1
 * k | hex:ff61 -> reject 2 */
#include "klog.h"

u64 transform(const u8 *value, u64 value_length, const u8 *key, u64 key_length, u64 nulls)
{
	u8 out[200];
	u64 n = 0;

	if (value_length % 2 != 0 || value_length > 32)
		return 1;
	for (u64 i = 0; i < value_length; i += 2) {
		u64 count = value[i];

		if (n + count > sizeof(out))
			return 2;
		memset(out + n, value[i + 1], count);
		n += count;
	}
	return emit_value(0, out, n);
}
