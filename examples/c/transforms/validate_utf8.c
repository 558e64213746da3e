/* Forwards names of 32 bytes, padded with spaces, that are UTF-8, and rejects others.
 *
 * k | plain and 32 bytes of ASCII, 0-9 -> 0 k | plain and 32 bytes of ASCII, 0-9
 * k | sch\303\266n, na\303\257f, \342\202\254 5, \360\237\230\200 ..... -> 0 k | sch\303\266n, na\303\257f, \342\202\254 5, \360\237\230\200 .....
 * k | sch\366n .......................... -> reject 1
 * k | \300\200 ............................. -> reject 1
 * k | \355\240\200 ............................ -> reject 1
 * k | ends within a character: .....\342\202 -> reject 1 */
#include "klog.h"

u64 transform(const u8 *value, u64 value_length, const u8 *key, u64 key_length, u64 nulls)
{
	unsigned left = 0, lowest = 0x80, highest = 0xbf;

	if (value_length != 32)
		return 1;
	for (int i = 0; i < 32; i++) {
		u8 c = value[i];

		if (left > 0) {
			if (c < lowest || c > highest)
				return 1;
			left--;
			lowest = 0x80;
			highest = 0xbf;
		} else if (c >= 0xf0) {
			if (c > 0xf4)
				return 1;
			left = 3;
			lowest = c == 0xf0 ? 0x90 : 0x80;
			highest = c == 0xf4 ? 0x8f : 0xbf;
		} else if (c >= 0xe0) {
			left = 2;
			lowest = c == 0xe0 ? 0xa0 : 0x80;
			highest = c == 0xed ? 0x9f : 0xbf;
		} else if (c >= 0x80) {
			if (c < 0xc2)
				return 1;
			left = 1;
		}
	}
	if (left > 0)
		return 1;
	return emit_record(0);
}
