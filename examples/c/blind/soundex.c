/* Keys a customer's surname by its American Soundex code, for the job that looks for duplicates.
 *
 * c1 | Robert -> 0 R163 | Robert
 * c2 | Ashcraft -> 0 A261 | Ashcraft
 * c3 | Tymczak -> 0 T522 | Tymczak
 * c4 | pfister -> 0 P236 | pfister
 * c5 | O'Hara -> 0 O600 | O'Hara
 * c6 | Lee -> 0 L000 | Lee
 * c7 | 123 -> reject 11 */
#include "klog.h"

/* The digits of A to Z; vowels have 0. */
static const char digits[] = "01230120022455012623010202";

static u8 to_upper(u8 c)
{
	return c >= 'a' && c <= 'z' ? c - 'a' + 'A' : c;
}

u64 transform(const u8 *value, u64 value_length, const u8 *key, u64 key_length, u64 nulls)
{
	u8 code[4] = {0, '0', '0', '0'};
	u64 length = 0;
	u8 last = '0';

	if (value_length > 48)
		return 10;

	for (u64 i = 0; i < value_length && length < 4; i++) {
		u8 c = to_upper(value[i]);

		if (c < 'A' || c > 'Z')
			continue;

		u8 digit = digits[c - 'A'];

		if (length == 0) {
			code[length++] = c;
			last = digit;
			continue;
		}
		if (c == 'H' || c == 'W')
			continue;
		if (digit != '0' && digit != last)
			code[length++] = digit;
		last = digit;
	}
	if (length == 0)
		return 11;
	return emit(0, code, sizeof(code), value, value_length);
}
