/* A value is a whole number in text, from -2147483648 to 2147483647. Emits it in 4 bytes, little-endian.
 *
 * k | 0 -> 0 k | hex:00000000
 * k | -1 -> 0 k | hex:ffffffff
 * k | +258 -> 0 k | hex:02010000
 * k | -2147483648 -> 0 k | hex:00000080
 * k | 2147483648 -> reject 3
 * k | - -> reject 1
 * k | 12x -> reject 2
 * k | -> reject 1 */
#include "klog.h"

u64 transform(const u8 *value, u64 value_length, const u8 *key, u64 key_length, u64 nulls)
{
	const u8 *p = value;
	const u8 *end = value + value_length;
	int negative = 0;
	long long n = 0;

	if (p < end && (*p == '-' || *p == '+')) {
		negative = *p == '-';
		p++;
	}
	if (p == end || end - p > 10)
		return 1;
	for (; p < end; p++) {
		if (*p < '0' || *p > '9')
			return 2;
		n = 10 * n + (*p - '0');
	}
	if (negative)
		n = -n;
	if (n < -2147483648LL || n > 2147483647LL)
		return 3;

	int out = (int)n;

	return emit_value(0, &out, sizeof out);
}
