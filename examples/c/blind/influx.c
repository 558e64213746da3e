/* Splits a line of the Influx line protocol into a record for each field: its key is the measurement, a point and the field's name, its
 * value what stands after the =. Tags and the timestamp are left out; a line has at most eight fields.
 *
 * k | cpu,host=a usage=3,idle=97 1700000000 -> 0 cpu.usage | 3 + 0 cpu.idle | 97
 * k | temp c=21.5 -> 0 temp.c | 21.5
 * k | disk,host=b,path=/ free=100i,used=7i,ok=t 17 -> 0 disk.free | 100i + 0 disk.used | 7i + 0 disk.ok | t
 * k | temp -> reject 10
 * k | temp c,d=1 -> reject 12
 * k | ,a=1 b=2 -> reject 11 */
#include "klog_parts.h"

#define MOST_FIELDS 8
#define MOST_NAME 32
#define MOST_VALUE 64

u64 transform(const u8 *value, u64 value_length, const u8 *key, u64 key_length, u64 nulls)
{
	struct span series = field(VALUE, ' ', 0), fields = field(VALUE, ' ', 1);
	u8 name[2 * MOST_NAME + 1], text[MOST_VALUE];
	u64 at, end, prefix, comma;

	if (!series.is_there || !fields.is_there || fields.length == 0)
		return 10;

	/* The measurement ends at the first tag. */
	comma = find(VALUE, 0, ",", 1);
	prefix = comma && comma - 1 < series.length ? comma - 1 : series.length;
	if (prefix == 0 || prefix > MOST_NAME)
		return 11;
	load_value(name, 0, prefix);
	name[prefix++] = '.';

	at = fields.at;
	end = fields.at + fields.length;
	for (int i = 0; i < MOST_FIELDS && at < end; i++) {
		u64 equal = find(VALUE, at, "=", 1);
		u64 stop;

		comma = find(VALUE, at, ",", 1);
		stop = comma && comma - 1 < end ? comma - 1 : end;
		if (equal == 0 || equal - 1 >= stop)
			return 12;

		u64 name_length = equal - 1 - at, text_length = stop - equal;

		if (name_length == 0 || name_length > MOST_NAME || text_length > MOST_VALUE)
			return 13;
		load_value(name + prefix, at, name_length);
		load_value(text, equal, text_length);
		if (emit(0, name, prefix + name_length, text, text_length))
			return 14;
		at = stop + 1;
	}
	return at < end ? 15 : 0;
}
