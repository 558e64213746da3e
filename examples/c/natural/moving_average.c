/* A value is 4 to 16 samples of 2 bytes, big-endian. Emits the average of each four that follow one another, as 2 bytes each.
 *
 * k | hex:0001000200030004 -> 0 k | hex:0002
 * k | hex:00000004000800040000 -> 0 k | hex:00040004
 * k | hex:000100020003 -> reject 10
 * k | hex:000100020003000405 -> reject 10 */
#include "klog.h"

#define WINDOW 4

u64 transform(const u8 *value, u64 value_length, const u8 *key, u64 key_length, u64 nulls)
{
	u16 samples[16];
	u8 out[26];
	u32 count = value_length / 2, n = 0, sum = 0;

	if (value_length & 1 || count < WINDOW || count > 16)
		return 10;
	for (u32 i = 0; i < count; i++)
		samples[i] = value[2 * i] << 8 | value[2 * i + 1];
	for (u32 i = 0; i < count; i++) {
		sum += samples[i];
		if (i >= WINDOW)
			sum -= samples[i - WINDOW];
		if (i >= WINDOW - 1) {
			out[n++] = sum / WINDOW >> 8;
			out[n++] = sum / WINDOW;
		}
	}
	return emit_value(0, out, n);
}
