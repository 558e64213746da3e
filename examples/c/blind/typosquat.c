/* Watches newly registered domains for look-alikes of our brands: where the first label is one edit away from a brand, output
 * 1 gets the domain and the brand. All others, the brands themselves among them, go to output 0.
 *
 * 7 | paypal.com -> 0 7 | paypal.com
 * 7 | paypa1.com -> 1 7 | paypa1.com looks like paypal
 * 7 | stripee.net -> 1 7 | stripee.net looks like stripe
 * 7 | klana.se -> 1 7 | klana.se looks like klarna
 * 7 | klrana.se -> 0 7 | klrana.se
 * 7 | example.org -> 0 7 | example.org
 * 7 | localhost -> 0 7 | localhost */
#include "klog.h"

#define LONGEST_BRAND 7
#define LONGEST_LABEL 8

static const char brands[][LONGEST_BRAND + 1] = {"paypal", "stripe", "klarna"};

/* The Levenshtein distance of a label and a brand. */
static u64 distance(const u8 *label, u64 length, const char *brand)
{
	u64 brand_length = strlen(brand);
	u8 row[LONGEST_BRAND + 1];

	for (u64 j = 0; j <= brand_length; j++)
		row[j] = j;
	for (u64 i = 0; i < length; i++) {
		u8 diagonal = row[0];

		row[0] = i + 1;
		for (u64 j = 0; j < brand_length; j++) {
			u8 above = row[j + 1];
			u8 cost = diagonal + (label[i] != (u8)brand[j]);

			if (above + 1 < cost)
				cost = above + 1;
			if (row[j] + 1 < cost)
				cost = row[j] + 1;
			row[j + 1] = cost;
			diagonal = above;
		}
	}
	return row[brand_length];
}

u64 transform(const u8 *value, u64 value_length, const u8 *key, u64 key_length, u64 nulls)
{
	u64 label_length = 0;

	if (value_length > 64)
		return emit_record(0);
	while (label_length < value_length && value[label_length] != '.')
		label_length++;
	if (label_length > LONGEST_LABEL)
		return emit_record(0);

	for (u64 i = 0; i < sizeof(brands) / sizeof(brands[0]); i++) {
		if (distance(value, label_length, brands[i]) != 1)
			continue;

		u8 text[96];
		u64 length = value_length;

		memcpy(text, value, value_length);
		memcpy(text + length, " looks like ", 12);
		length += 12;
		memcpy(text + length, brands[i], strlen(brands[i]));
		length += strlen(brands[i]);
		return emit_value(1, text, length);
	}
	return emit_record(0);
}
