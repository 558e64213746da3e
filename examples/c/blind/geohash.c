/* Keys the position of a rental bike, which is "LATITUDE,LONGITUDE" in millionths of a degree, by its geohash of five letters.
 *
 * bike4 | 57649110,10407440 -> 0 u4pru | 57649110,10407440
 * bike4 | 42605000,-5603000 -> 0 ezs42 | 42605000,-5603000
 * bike4 | 0,0 -> 0 s0000 | 0,0
 * bike4 | -90000000,-180000000 -> 0 00000 | -90000000,-180000000
 * bike4 | 91000000,0 -> reject 12
 * bike4 | 57.6,10.4 -> reject 11
 * bike4 | north -> reject 10 */
#include "klog.h"

static const char alphabet[] = "0123456789bcdefghjkmnpqrstuvwxyz";

/* Reads the signed number between two places of a text. The result is whether there is one. */
static int read_number(const u8 *text, u64 from, u64 to, int *number)
{
	int sign = 1, sum = 0;

	if (from < to && text[from] == '-') {
		sign = -1;
		from++;
	}
	if (from >= to || to - from > 9)
		return 0;
	for (u64 i = from; i < to; i++) {
		if (text[i] < '0' || text[i] > '9')
			return 0;
		sum = sum * 10 + (text[i] - '0');
	}
	*number = sign * sum;
	return 1;
}

u64 transform(const u8 *value, u64 value_length, const u8 *key, u64 key_length, u64 nulls)
{
	int range[2][2] = {{-180000000, 180000000}, {-90000000, 90000000}};
	int point[2];
	u64 comma = 0;
	u8 code[5], letter = 0;

	if (value_length > 24)
		return 10;
	while (comma < value_length && value[comma] != ',')
		comma++;
	if (comma == value_length)
		return 10;
	if (!read_number(value, 0, comma, &point[1]) || !read_number(value, comma + 1, value_length, &point[0]))
		return 11;
	for (int i = 0; i < 2; i++)
		if (point[i] < range[i][0] || point[i] > range[i][1])
			return 12;

	/* Each bit says in which half of what is left the point is: of the longitudes first, then of the latitudes. */
	for (int i = 0; i < 25; i++) {
		int *left = range[i % 2];
		int middle = (left[0] + left[1]) / 2;
		int upper = point[i % 2] >= middle;

		left[upper ? 0 : 1] = middle;
		letter = letter << 1 | upper;
		if (i % 5 == 4) {
			code[i / 5] = alphabet[letter];
			letter = 0;
		}
	}
	return emit(0, code, sizeof(code), value, value_length);
}
