/* A value is a number from 1 to 3999 in decimal. Emits it in Roman numerals.
 *
 * k | 1994 -> 0 k | MCMXCIV
 * k | 3888 -> 0 k | MMMDCCCLXXXVIII
 * k | 4 -> 0 k | IV
 * k | 0 -> reject 10
 * k | 4000 -> reject 10
 * k | 12a -> reject 10 */
#include "klog.h"

static const struct {
	u16 value;
	char text[3];
} numerals[] = {
	{ 1000, "M" }, { 900, "CM" }, { 500, "D" }, { 400, "CD" }, { 100, "C" }, { 90, "XC" }, { 50, "L" },
	{ 40, "XL" },  { 10, "X" },   { 9, "IX" },  { 5, "V" },    { 4, "IV" },	 { 1, "I" },
};

u64 transform(const u8 *value, u64 value_length, const u8 *key, u64 key_length, u64 nulls)
{
	u32 number = 0;
	char out[16];
	u32 n = 0;

	if (value_length < 1 || value_length > 4)
		return 10;
	for (u64 i = 0; i < value_length; i++) {
		if (value[i] < '0' || value[i] > '9')
			return 10;
		number = number * 10 + (value[i] - '0');
	}
	if (number < 1 || number > 3999)
		return 10;
	for (u32 i = 0; i < sizeof numerals / sizeof numerals[0]; i++) {
		while (number >= numerals[i].value) {
			number -= numerals[i].value;
			for (const char *c = numerals[i].text; *c && n < sizeof out; c++)
				out[n++] = *c;
		}
	}
	return emit_value(0, out, n);
}
