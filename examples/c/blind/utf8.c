/* Sends values that are UTF-8 to output 0 and others to output 1. Overlong forms, surrogates and code points over 10FFFF are none.
 *
 * k | caf\xc3\xa9 -> 0 k | caf\xc3\xa9
 * k | \xe2\x82\xac5 -> 0 k | \xe2\x82\xac5
 * k | \xf0\x9f\x98\x80 -> 0 k | \xf0\x9f\x98\x80
 * k | plain -> 0 k | plain
 * k | \xff -> 1 k | \xff
 * k | \xc0\xaf -> 1 k | \xc0\xaf
 * k | \xed\xa0\x80 -> 1 k | \xed\xa0\x80
 * k | abc\xc3 -> 1 k | abc\xc3
 * k | a*300 -> reject 10 */
#include "klog.h"

/* What may follow: how many bytes, and the range of the next of them. */
struct state {
	u8 left, low, high;
};

static int step(struct state *s, u8 c)
{
	if (s->left > 0) {
		if (c < s->low || c > s->high)
			return 0;
		s->left--;
		s->low = 0x80;
		s->high = 0xbf;
		return 1;
	}
	if (c < 0x80)
		return 1;
	s->low = 0x80;
	s->high = 0xbf;
	if (c >= 0xc2 && c <= 0xdf) {
		s->left = 1;
	} else if ((c & 0xf0) == 0xe0) {
		s->left = 2;
		if (c == 0xe0)
			s->low = 0xa0;
		if (c == 0xed)
			s->high = 0x9f;
	} else if (c >= 0xf0 && c <= 0xf4) {
		s->left = 3;
		if (c == 0xf0)
			s->low = 0x90;
		if (c == 0xf4)
			s->high = 0x8f;
	} else {
		return 0;
	}
	return 1;
}

u64 transform(const u8 *value, u64 value_length, const u8 *key, u64 key_length, u64 nulls)
{
	struct state state = {0, 0, 0};

	if (value_length > 128)
		return 10;
	for (u64 i = 0; i < value_length; i++)
		if (!step(&state, value[i]))
			return emit_record(1);
	return emit_record(state.left == 0 ? 0 : 1);
}
