/* Writes a value of up to 20 letters and spaces in Morse code: a space after each letter, and a / for a space.
 *
 * k | SOS -> 0 k | ... --- ...\x20
 * k | a b -> 0 k | .- / -...\x20
 * k | hex: -> 0 k | hex:
 * k | 5 -> reject 2
 */
#include "klog.h"

static const char *const codes[26] = {
	".-", "-...", "-.-.", "-..", ".", "..-.", "--.", "....", "..", ".---", "-.-", ".-..", "--",
	"-.", "---", ".--.", "--.-", ".-.", "...", "-", "..-", "...-", ".--", "-..-", "-.--", "--..",
};

u64 transform(const u8 *value, u64 value_length, const u8 *key, u64 key_length, u64 nulls)
{
	char text[128];
	u64 n = 0;

	if (value_length > 20)
		return 1;
	for (u64 i = 0; i < value_length; i++) {
		u8 c = value[i];
		if (c == ' ') {
			text[n++] = '/';
			text[n++] = ' ';
			continue;
		}
		if (c >= 'a' && c <= 'z')
			c -= 32;
		if (c < 'A' || c > 'Z')
			return 2;
		for (const char *p = codes[c - 'A']; *p; p++)
			text[n++] = *p;
		text[n++] = ' ';
	}
	return emit_value(0, text, n);
}
