/* Writes a meter's telegram as a text: a byte for the unit and eight digits in packed BCD, of which the lowest two come
 * first.
 *
 * m1 | hex:0178563412 -> 0 m1 | 12345678 kWh
 * m1 | hex:0245000000 -> 0 m1 | 45 l
 * m1 | hex:0300000000 -> 0 m1 | 0 m3
 * m1 | hex:0005010000 -> 0 m1 | 105 Wh
 * m1 | hex:017a000000 -> reject 71
 * m1 | hex:0900000000 -> reject 70
 * m1 | hex:01 -> reject 70 */
#include "klog.h"

static const char units[4][4] = {"Wh", "kWh", "l", "m3"};

u64 transform(const u8 *value, u64 value_length, const u8 *key, u64 key_length, u64 nulls)
{
	u8 text[16];
	u64 length = 0;

	if (value_length != 5 || value[0] > 3)
		return 70;

	for (int i = 4; i >= 1; i--) {
		u8 high = value[i] >> 4, low = value[i] & 15;

		if (high > 9 || low > 9)
			return 71;
		if (length > 0 || high > 0)
			text[length++] = '0' + high;
		if (length > 0 || low > 0 || i == 1)
			text[length++] = '0' + low;
	}

	const char *unit = units[value[0]];

	text[length++] = ' ';
	memcpy(text + length, unit, strlen(unit));
	length += strlen(unit);
	return emit_value(0, text, length);
}
