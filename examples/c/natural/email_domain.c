/* A key is an address of mail of up to 64 bytes. Gives the record the domain, what follows the last @, as key, in lower case.
 *
 * Ann@Example.ORG | v -> 0 example.org | v
 * a@b@C | v -> 0 c | v
 * nobody | v -> reject 11
 * x@ | v -> reject 11
 * null | v -> reject 11 */
#include "klog.h"

u64 transform(const u8 *value, u64 value_length, const u8 *key, u64 key_length, u64 nulls)
{
	char domain[64];
	u64 start = 0, length = 0;

	if (key_length > sizeof domain)
		return 10;
	for (u64 i = key_length; i > 0; i--) {
		if (key[i - 1] == '@') {
			start = i;
			break;
		}
	}
	if (start == 0 || start == key_length)
		return 11;
	for (u64 i = start; i < key_length; i++) {
		u8 c = key[i];

		domain[length++] = c >= 'A' && c <= 'Z' ? c | 0x20 : c;
	}
	return emit(0, domain, length, value, value_length);
}
