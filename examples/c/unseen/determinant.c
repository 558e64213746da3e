/* A value is a matrix of 3 by 3 signed bytes. Emits its determinant, in 4 bytes, big-endian.
 *
 * k | hex:010000000100000001 -> 0 k | hex:00000001
 * k | hex:010203040506070809 -> 0 k | hex:00000000
 * k | hex:ff0000000200000003 -> 0 k | hex:fffffffa
 * k | hex:01 -> reject 1 */
#include "klog.h"

#define N 3

u64 transform(const u8 *value, u64 value_length, const u8 *key, u64 key_length, u64 nulls)
{
	signed char m[N][N];
	int sum = 0;

	if (value_length != sizeof(m))
		return 1;
	load_value(m, 0, sizeof(m));
	for (int i = 0; i < N; i++) {
		int j = (i + 1) % N, k = (i + 2) % N;

		sum += m[0][i] * (m[1][j] * m[2][k] - m[1][k] * m[2][j]);
	}

	u8 out[4];

	for (int i = 0; i < 4; i++)
		out[i] = sum >> (24 - 8 * i);
	return emit_value(0, out, 4);
}
