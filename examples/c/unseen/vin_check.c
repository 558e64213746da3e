/* A key is the number of a vehicle, of 17 letters and digits, of which the ninth checks the others. Rejects a wrong one with code 2,
 * and one with other letters with code 1.
 *
 * 1M8GDM9AXKP042788 | v -> 0 1M8GDM9AXKP042788 | v
 * 11111111111111111 | v -> 0 11111111111111111 | v
 * 1M8GDM9A1KP042788 | v -> reject 2
 * 1M8GDM9AXKP04278O | v -> reject 1
 * 1M8GDM9AX | v -> reject 1
 */
#include "klog.h"

static const u8 letters[26] = {
	1, 2, 3, 4, 5, 6, 7, 8, 0, 1, 2, 3, 4, 5, 0, 7, 0, 9, 2, 3, 4, 5, 6, 7, 8, 9
};
static const u8 weights[17] = {8, 7, 6, 5, 4, 3, 2, 10, 0, 9, 8, 7, 6, 5, 4, 3, 2};

static int number_of(u8 c)
{
	if (c >= '0' && c <= '9')
		return c - '0';
	if (c >= 'A' && c <= 'Z' && letters[c - 'A'] != 0)
		return letters[c - 'A'];
	return -1;
}

u64 transform(const u8 *value, u64 value_length, const u8 *key, u64 key_length, u64 nulls)
{
	int sum = 0;

	if (key_length != 17)
		return 1;
	for (int i = 0; i < 17; i++) {
		int n = number_of(key[i]);
		if (n < 0)
			return 1;
		sum += n * weights[i];
	}
	int check = sum % 11;
	if (key[8] != (check == 10 ? 'X' : '0' + check))
		return 2;
	return emit_record(0);
}
