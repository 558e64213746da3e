/* A value is a reading: a kind of 1 byte, a sensor of 1 byte, and a number of 2 bytes, signed, little-endian. Each kind has its own
 * limits: temperature (1) from -200 to 850, pressure (2) from 300 to 1100, humidity (3) from 0 to 100. Sends readings outside them to
 * output 1, others to output 0, and those of other kinds to output 2.
 *
 * k | hex:0107e703 -> 1 k | hex:0107e703
 * k | hex:010738ff -> 0 k | hex:010738ff
 * k | hex:010737ff -> 1 k | hex:010737ff
 * k | hex:02014c04 -> 0 k | hex:02014c04
 * k | hex:0301ffff -> 1 k | hex:0301ffff
 * k | hex:09010000 -> 2 k | hex:09010000
 * k | abc -> reject 1 */
#include "klog.h"

struct reading {
	u8 kind;
	u8 sensor;
	short amount;
};

struct limits {
	short low, high;
};

static int is_outside(const struct reading *r, struct limits l)
{
	return r->amount < l.low || r->amount > l.high;
}

u64 transform(const u8 *value, u64 value_length, const u8 *key, u64 key_length, u64 nulls)
{
	struct reading r;
	struct limits l;

	if (value_length != sizeof(r) || load_value(&r, 0, sizeof(r)))
		return 1;
	switch (r.kind) {
	case 1:
		l.low = -200;
		l.high = 850;
		break;
	case 2:
		l.low = 300;
		l.high = 1100;
		break;
	case 3:
		l.low = 0;
		l.high = 100;
		break;
	default:
		return emit_record(2);
	}
	return emit_record(is_outside(&r, l) ? 1 : 0);
}
