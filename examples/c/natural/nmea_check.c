/* A value is a sentence of a GPS receiver of up to 82 bytes: $, the text, *, and the exclusive or of the text's bytes as two hexadecimal
 * digits. Emits the text of a right one, and rejects others.
 *
 * k | $GPGLL,A\x2a3D -> 0 k | GPGLL,A
 * k | $A\x2a41 -> 0 k | A
 * k | $A\x2a42 -> reject 12
 * k | $A\x2a4 -> reject 11
 * k | A\x2a41 -> reject 10
 * k | null -> reject 10 */
#include "klog.h"

static u8 from_hex(u8 c)
{
	if (c >= '0' && c <= '9')
		return c - '0';
	if (c >= 'A' && c <= 'F')
		return c - 'A' + 10;
	return 255;
}

u64 transform(const u8 *value, u64 value_length, const u8 *key, u64 key_length, u64 nulls)
{
	u8 sum = 0;
	u64 star = 0;

	if (value_length < 1 || value_length > 82 || value[0] != '$')
		return 10;
	for (u64 i = 1; i < value_length; i++) {
		if (value[i] == '*') {
			star = i;
			break;
		}
		sum ^= value[i];
	}
	if (star == 0 || star + 3 != value_length)
		return 11;
	if (from_hex(value[star + 1]) != sum >> 4 || from_hex(value[star + 2]) != (sum & 15))
		return 12;
	return emit_value(0, value + 1, star - 1);
}
