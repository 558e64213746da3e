/* A key is a MAC address as AA-BB-CC-DD-EE-FF, AA:BB:CC:DD:EE:FF or AABBCCDDEEFF, in either case. Writes it as aa:bb:cc:dd:ee:ff.
 *
 * AA-BB-CC-DD-EE-0F | v -> 0 aa:bb:cc:dd:ee:0f | v
 * aa:Bb:cC:dd:ee:ff | v -> 0 aa:bb:cc:dd:ee:ff | v
 * 0123456789ab | v -> 0 01:23:45:67:89:ab | v
 * AA-BB-CC-DD-EE | v -> reject 10
 * AA.BB.CC.DD.EE.FF | v -> reject 10
 * 0123456789ag | v -> reject 10 */
#include "klog.h"

static u8 lower(u8 c)
{
	if (c >= 'A' && c <= 'F')
		return c - 'A' + 'a';
	if ((c >= 'a' && c <= 'f') || (c >= '0' && c <= '9'))
		return c;
	return 0;
}

u64 transform(const u8 *value, u64 value_length, const u8 *key, u64 key_length, u64 nulls)
{
	u8 out[17];
	int step;

	if (key_length == 17)
		step = 3;
	else if (key_length == 12)
		step = 2;
	else
		return 10;
	for (int i = 0; i < 6; i++) {
		u8 high = lower(key[i * step]), low = lower(key[i * step + 1]);

		if (!high || !low)
			return 10;
		out[i * 3] = high;
		out[i * 3 + 1] = low;
		if (i < 5) {
			if (step == 3 && key[i * 3 + 2] != '-' && key[i * 3 + 2] != ':')
				return 10;
			out[i * 3 + 2] = ':';
		}
	}
	return emit(0, out, sizeof out, value, value_length);
}
