/* Writes a MAC address, in whichever of the usual forms it comes, in lower case with colons.
 *
 * k | 00-1B-44-11-3A-B7 -> 0 k | 00:1b:44:11:3a:b7
 * k | 001b.4411.3ab7 -> 0 k | 00:1b:44:11:3a:b7
 * k | 001B44113AB7 -> 0 k | 00:1b:44:11:3a:b7
 * k | 00:1b:44:11:3a -> reject 12
 * k | 00:1b:44:11:3a:zz -> reject 11
 * k | 00-1B-44-11-3A-B7-99-00 -> reject 10 */
#include "klog.h"

static int hex_digit(u8 c)
{
	if (c >= '0' && c <= '9')
		return c - '0';
	if (c >= 'a' && c <= 'f')
		return c - 'a' + 10;
	if (c >= 'A' && c <= 'F')
		return c - 'A' + 10;
	return -1;
}

u64 transform(const u8 *value, u64 value_length, const u8 *key, u64 key_length, u64 nulls)
{
	char mac[17];
	u32 digits = 0, length = 0;

	if (value_length > 17)
		return 10;
	for (u64 i = 0; i < value_length; i++) {
		if (value[i] == ':' || value[i] == '-' || value[i] == '.')
			continue;

		int digit = hex_digit(value[i]);

		if (digit < 0)
			return 11;
		if (digits == 12)
			return 12;
		if (digits > 0 && digits % 2 == 0)
			mac[length++] = ':';
		mac[length++] = "0123456789abcdef"[digit];
		digits++;
	}
	if (digits != 12)
		return 12;
	return emit_value(0, mac, sizeof mac);
}
