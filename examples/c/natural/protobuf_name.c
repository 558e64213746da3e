/* A value is a message of protobuf of up to 200 bytes and 16 fields. Gives the record the bytes of its field 3 as key.
 *
 * k | hex:0896011a03616e6e -> 0 ann | hex:0896011a03616e6e
 * k | hex:0d000000001900000000000000001a0162 -> 0 b | hex:0d000000001900000000000000001a0162
 * k | hex:089601 -> reject 12
 * k | hex:1a05616e6e -> reject 11
 * k | hex:0f -> reject 11 */
#include "klog.h"

struct reader {
	const u8 *data;
	u64 length;
	u64 at;
	int failed;
};

static u64 read_varint(struct reader *r)
{
	u64 number = 0;

	for (int shift = 0; shift < 35; shift += 7) {
		if (r->at >= r->length) {
			r->failed = 1;
			return 0;
		}
		u8 byte = r->data[r->at++];

		number |= (u64)(byte & 0x7f) << shift;
		if (!(byte & 0x80))
			return number;
	}
	r->failed = 1;
	return 0;
}

static void skip(struct reader *r, u64 count)
{
	if (count > r->length - r->at)
		r->failed = 1;
	else
		r->at += count;
}

u64 transform(const u8 *value, u64 value_length, const u8 *key, u64 key_length, u64 nulls)
{
	struct reader r = { value, value_length, 0, 0 };

	if (value_length > 200)
		return 10;
	for (int i = 0; i < 16 && r.at < r.length; i++) {
		u64 tag = read_varint(&r);

		switch (tag & 7) {
		case 0:
			read_varint(&r);
			break;
		case 1:
			skip(&r, 8);
			break;
		case 2: {
			u64 size = read_varint(&r);
			u64 start = r.at;

			skip(&r, size);
			if (!r.failed && tag >> 3 == 3)
				return emit(0, value + start, size, value, value_length);
			break;
		}
		case 5:
			skip(&r, 4);
			break;
		default:
			return 11;
		}
		if (r.failed)
			return 11;
	}
	return 12;
}
