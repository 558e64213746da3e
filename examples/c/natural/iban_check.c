/* A key is an IBAN of 15 to 34 letters and digits. Sends records with a right one to output 0, and others to output 1: with its first
 * four letters at its end, and A to Z as 10 to 35, it is 1 modulo 97.
 *
 * GB82WEST12345698765432 | v -> 0 GB82WEST12345698765432 | v
 * DE89370400440532013000 | v -> 0 DE89370400440532013000 | v
 * DE88370400440532013000 | v -> 1 DE88370400440532013000 | v
 * DE8937040044-532013000 | v -> 1 DE8937040044-532013000 | v
 * DE89 | v -> 1 DE89 | v */
#include "klog.h"

u64 transform(const u8 *value, u64 value_length, const u8 *key, u64 key_length, u64 nulls)
{
	u32 remainder = 0;

	if (key_length < 15 || key_length > 34)
		return emit_record(1);
	for (u32 i = 0; i < key_length; i++) {
		u8 c = key[(i + 4) % key_length];

		if (c >= '0' && c <= '9')
			remainder = (remainder * 10 + (c - '0')) % 97;
		else if (c >= 'A' && c <= 'Z')
			remainder = (remainder * 100 + (c - 'A' + 10)) % 97;
		else
			return emit_record(1);
	}
	return emit_record(remainder == 1 ? 0 : 1);
}
