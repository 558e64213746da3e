/* Takes the amount (tag 9F02, six bytes of decimal digits) and the currency (tag 5F2A, two bytes) from the data of a card's chip, which is
 * in BER-TLV of up to 16 objects, and emits the number of the currency as the key and the amount as the value.
 *
 * k | \x9f\x02\x06\x00\x00\x00\x00\x12\x34\x5f\x2a\x02\x09\x78 -> 0 978 | 000000001234
 * k | \x5f\x2a\x02\x08\x40\x9f\x02\x06\x00\x00\x00\x10\x00\x00 -> 0 840 | 000000100000
 * k | \x82\x02\x19\x80\x5f\x2a\x81\x02\x08\x26\x9f\x02\x06\x00\x00\x00\x00\x00\x07 -> 0 826 | 000000000007
 * k | \x5f\x2a\x02\x08\x40 -> reject 13
 * k | \x9f\x02\x06\x00\x00 -> reject 11
 * k | \x9f\x02\x01\x00 -> reject 12
 * k | \x5f\x2a\x02\x08\x4a -> reject 12 */
#include "klog.h"

#define AMOUNT 0x9f02
#define CURRENCY 0x5f2a

/* Writes the two digits of each byte. The result is 0 where one is no decimal digit. */
static int unpack(char *text, const u8 *bytes, u64 length)
{
	for (u64 i = 0; i < length; i++) {
		u8 high = bytes[i] >> 4, low = bytes[i] & 0xf;

		if (high > 9 || low > 9)
			return 0;
		text[2 * i] = '0' + high;
		text[2 * i + 1] = '0' + low;
	}
	return 1;
}

u64 transform(const u8 *value, u64 value_length, const u8 *key, u64 key_length, u64 nulls)
{
	char amount[12], currency[4];
	int has_amount = 0, has_currency = 0;
	u64 at = 0;

	for (int i = 0; i < 16 && at < value_length; i++) {
		u32 tag = value[at++];
		u64 length;

		if ((tag & 0x1f) == 0x1f) {
			if (at >= value_length)
				return 11;
			tag = tag << 8 | value[at++];
		}
		if (at >= value_length)
			return 11;
		length = value[at++];
		if (length == 0x81) {
			if (at >= value_length)
				return 11;
			length = value[at++];
		} else if (length > 0x7f) {
			return 11;
		}
		if (length > value_length - at)
			return 11;
		if (tag == AMOUNT) {
			if (length != 6 || !unpack(amount, value + at, 6))
				return 12;
			has_amount = 1;
		} else if (tag == CURRENCY) {
			if (length != 2 || !unpack(currency, value + at, 2))
				return 12;
			has_currency = 1;
		}
		at += length;
	}
	if (!has_amount || !has_currency)
		return 13;
	return emit(0, currency + 1, 3, amount, sizeof amount);
}
