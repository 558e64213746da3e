/* A value is the text of a payment's QR code (EMV): elements of a tag of two digits, a length of two digits and so many bytes. Emits
 * the merchant's name (tag 59) and the amount (tag 54) with a semicolon between. Rejected are a code of more than 24 elements or with a
 * wrong length (10), and one without a name or an amount (11).
 *
 * k | 000201540412.55904ACME -> 0 k | ACME;12.5
 * k | 5903Bob54011 -> 0 k | Bob;1
 * k | 5900540179 -> reject 10
 * k | 59005401758020 -> reject 10
 * k | 5904ACME -> reject 11
 * k | 5904ACM -> reject 10
 * k | x -> reject 10 */
#include "klog.h"

#define MOST_ELEMENTS 24

enum { AMOUNT = 54, NAME = 59 };

static int two_digits(const u8 *text)
{
	unsigned tens = text[0] - '0', ones = text[1] - '0';

	return tens < 10 && ones < 10 ? (int)(tens * 10 + ones) : -1;
}

u64 transform(const u8 *value, u64 value_length, const u8 *key, u64 key_length, u64 nulls)
{
	const u8 *name = NULL, *amount = NULL;
	int name_length = 0, amount_length = 0;
	u64 at = 0;
	u8 out[99 + 1 + 99];

	for (int i = 0; i < MOST_ELEMENTS && at < value_length; i++) {
		if (value_length - at < 4)
			return 10;

		int tag = two_digits(value + at), length = two_digits(value + at + 2);

		at += 4;
		if (tag < 0 || length < 0 || (u64)length > value_length - at)
			return 10;
		switch (tag) {
		case NAME:
			name = value + at;
			name_length = length;
			break;
		case AMOUNT:
			amount = value + at;
			amount_length = length;
			break;
		}
		at += length;
	}
	if (at < value_length)
		return 10;
	if (!name || !amount)
		return 11;

	memcpy(out, name, name_length);
	out[name_length] = ';';
	memcpy(out + name_length + 1, amount, amount_length);
	return emit_value(0, out, name_length + 1 + amount_length);
}
