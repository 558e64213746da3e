/* A value begins with a latitude and a longitude in millionths of a degree, signed numbers of 4 bytes, big-endian. Gives the record
 * the geohash of the place as key, in 6 letters.
 *
 * k | \x03\x22\xe3\xd9\x00\x23\x6c\x3b -> 0 u13ekf | \x03\x22\xe3\xd9\x00\x23\x6c\x3b
 * k | hex:0000000000000000 -> 0 s00000 | hex:0000000000000000
 * k | hex:00000000ff -> reject 10
 * k | hex:7fffffff00000000 -> reject 11 */
#include "klog.h"

static const char letters[] = "0123456789bcdefghjkmnpqrstuvwxyz";

static int read_be32(const u8 *p)
{
	return (int)((u32)p[0] << 24 | (u32)p[1] << 16 | (u32)p[2] << 8 | p[3]);
}

u64 transform(const u8 *value, u64 value_length, const u8 *key, u64 key_length, u64 nulls)
{
	char hash[6];

	if (value_length < 8)
		return 10;

	int latitude = read_be32(value), longitude = read_be32(value + 4);
	int south = -90000000, north = 90000000, west = -180000000, east = 180000000;

	if (latitude < south || latitude > north || longitude < west || longitude > east)
		return 11;
	for (int i = 0; i < 6; i++) {
		int five = 0;

		for (int bit = 0; bit < 5; bit++) {
			if ((i * 5 + bit) % 2 == 0) {
				int middle = (west + east) / 2;

				if (longitude >= middle) {
					five = five * 2 + 1;
					west = middle;
				} else {
					five = five * 2;
					east = middle;
				}
			} else {
				int middle = (south + north) / 2;

				if (latitude >= middle) {
					five = five * 2 + 1;
					south = middle;
				} else {
					five = five * 2;
					north = middle;
				}
			}
		}
		hash[i] = letters[five];
	}
	return emit(0, hash, sizeof hash, value, value_length);
}
