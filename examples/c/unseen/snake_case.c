/* Gives a record its key of up to 40 letters in snake case: a _ before each capital but the first, and all letters small.
 *
 * customerId | v -> 0 customer_id | v
 * HTTPPort | v -> 0 h_t_t_p_port | v
 * plain | v -> 0 plain | v
 * | v -> 0 | v */
#include "klog.h"

u64 transform(const u8 *value, u64 value_length, const u8 *key, u64 key_length, u64 nulls)
{
	char name[80];
	char *to = name;

	if (key_length > 40)
		return 1;
	for (const u8 *from = key; from < key + key_length; from++) {
		if (*from >= 'A' && *from <= 'Z') {
			if (from != key)
				*to++ = '_';
			*to++ = *from - 'A' + 'a';
		} else {
			*to++ = *from;
		}
	}
	return emit(0, name, to - name, value, value_length);
}
