/* Routes a visit by the language that the browser prefers, whose Accept-Language line is the value: English goes to output 0,
 * German to 1, French to 2. The one with the highest q counts, of equals the first; visits with none go to output 0.
 *
 * v | de -> 1 v | de
 * v | de;q=0.8,en;q=0.9 -> 0 v | de;q=0.8,en;q=0.9
 * v | fr-CH, fr;q=0.9, en;q=0.8, de;q=0.7 -> 2 v | fr-CH, fr;q=0.9, en;q=0.8, de;q=0.7
 * v | es, de;q=0.35, en;q=0.4 -> 0 v | es, de;q=0.35, en;q=0.4
 * v | null -> 0 v | null */
#include "klog_parts.h"

#define ITEMS 8

static const char languages[][3] = {"en", "de", "fr"};

/* An item's q, in thousandths. */
static u64 quality(struct span item)
{
	u64 end = item.at + item.length;
	u64 at = find(VALUE, item.at, ";q=", 3);

	if (at == 0 || at > end)
		return 1000;
	at += 2;

	u64 whole = decimal(VALUE, at, 1);

	if (whole == 0)
		return 0;

	u64 q = (whole - 1) * 1000;

	if (!equals(VALUE, at + 1, ".", 1))
		return q;
	at += 2;
	for (u64 unit = 100; unit > 0 && at < end; unit /= 10) {
		u64 digit = decimal(VALUE, at, 1);

		if (digit == 0)
			break;
		q += (digit - 1) * unit;
		at++;
	}
	return q;
}

/* Whether an item is of a language: its two letters, and then nothing, a region or a q. */
static int is_of(struct span item, const char *language)
{
	if (item.length < 2 || !equals(VALUE, item.at, language, 2))
		return 0;
	return item.length == 2 || equals(VALUE, item.at + 2, "-", 1) || equals(VALUE, item.at + 2, ";", 1);
}

u64 transform(const u8 *value, u64 value_length, const u8 *key, u64 key_length, u64 nulls)
{
	u64 best = 0, output = 0;

	for (u64 i = 0; i < ITEMS; i++) {
		struct span item = field(VALUE, ',', i);

		if (!item.is_there)
			break;
		if (item.length > 0 && equals(VALUE, item.at, " ", 1)) {
			item.at++;
			item.length--;
		}
		for (u64 l = 0; l < 3; l++) {
			if (!is_of(item, languages[l]))
				continue;

			u64 q = quality(item);

			if (q > best) {
				best = q;
				output = l;
			}
		}
	}
	return emit_record(output);
}
