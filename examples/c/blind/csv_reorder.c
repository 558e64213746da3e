/* Reorders the order line id,customer,quantity,price to customer;id;price;quantity for the billing importer. A line that has not
 * exactly four fields is rejected with 10, one that gets too long with 11.
 *
 * k | 17,acme,3,19.90 -> 0 k | acme;17;19.90;3
 * k | 1,b,2,4 -> 0 k | b;1;4;2
 * k | ,,, -> 0 k | ;;;
 * k | 17,acme,3 -> reject 10
 * k | 17,acme,3,19.90,x -> reject 10 */
#include "klog_parts.h"

#define FIELDS 4

static const u8 order[FIELDS] = {1, 0, 3, 2};

u64 transform(const u8 *value, u64 value_length, const u8 *key, u64 key_length, u64 nulls)
{
	char line[256];
	u64 length = 0;

	if (!field(VALUE, ',', FIELDS - 1).is_there || field(VALUE, ',', FIELDS).is_there)
		return 10;
	for (int i = 0; i < FIELDS; i++) {
		struct span f = field(VALUE, ',', order[i]);

		if (length + f.length + 1 > sizeof line)
			return 11;
		if (i > 0)
			line[length++] = ';';
		load_part(line + length, f.at, f.length, VALUE);
		length += f.length;
	}
	return emit_value(0, line, length);
}
