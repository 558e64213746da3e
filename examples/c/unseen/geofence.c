/* A value begins with a position: latitude and longitude in millionths of a degree, signed numbers of 4 bytes, big-endian. Sends
 * positions that are within 0.05 degrees of the depot at 52.52, 13.405 to output 1, others to output 0, and rejects what is no position.
 *
 * k | hex:032162c0 00cc8c48 -> 1 k | hex:032162c000cc8c48
 * k | hex:0321e000 00cc8c48 -> 1 k | hex:0321e00000cc8c48
 * k | hex:03230000 00cc8c48 -> 0 k | hex:0323000000cc8c48
 * k | hex:fcdE9d40 ff3373b8 -> 0 k | hex:fcde9d40ff3373b8
 * k | hex:7fffffff 00000000 -> reject 2
 * k | abc -> reject 1 */
#include "klog.h"

static int read_int(const u8 *p)
{
	return (int)((u32)p[0] << 24 | (u32)p[1] << 16 | (u32)p[2] << 8 | p[3]);
}

static int distance(int a, int b)
{
	int d = a - b;

	return d < 0 ? -d : d;
}

u64 transform(const u8 *value, u64 value_length, const u8 *key, u64 key_length, u64 nulls)
{
	if (value_length < 8)
		return 1;

	int latitude = read_int(value), longitude = read_int(value + 4);

	if (latitude < -90000000 || latitude > 90000000 || longitude < -180000000 || longitude > 180000000)
		return 2;
	if (distance(latitude, 52520000) <= 50000 && distance(longitude, 13405000) <= 50000)
		return emit_record(1);
	return emit_record(0);
}
