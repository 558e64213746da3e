/* A key is the code of a country in two letters, in either case. Routes the record by its region: Europe to output 0, America to 1, Asia
 * to 2, others to 3; a key that is no two letters is rejected.
 *
 * de | v -> 0 de | v
 * US | v -> 1 US | v
 * Jp | v -> 2 Jp | v
 * zz | v -> 3 zz | v
 * deu | v -> reject 1
 * d1 | v -> reject 1 */
#include "klog.h"

#define CODE(a, b) ((a) << 8 | (b))

static int upper(u8 c)
{
	if (c >= 'a' && c <= 'z')
		return c - ('a' - 'A');
	if (c >= 'A' && c <= 'Z')
		return c;
	return -1;
}

u64 transform(const u8 *value, u64 value_length, const u8 *key, u64 key_length, u64 nulls)
{
	if (key_length != 2)
		return 1;

	int a = upper(key[0]), b = upper(key[1]);

	if (a < 0 || b < 0)
		return 1;
	switch (CODE(a, b)) {
	case CODE('D', 'E'):
	case CODE('F', 'R'):
	case CODE('I', 'T'):
	case CODE('E', 'S'):
	case CODE('G', 'B'):
		return emit_record(0);
	case CODE('U', 'S'):
	case CODE('C', 'A'):
	case CODE('B', 'R'):
		return emit_record(1);
	case CODE('J', 'P'):
	case CODE('C', 'N'):
	case CODE('I', 'N'):
		return emit_record(2);
	}
	return emit_record(3);
}
