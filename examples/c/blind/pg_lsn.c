/* Keys a change event by its position in Postgres' log: the "lsn" of the value, such as 16/B374D848, becomes a key of eight
 * bytes, the high one first, so that keys sort as positions do.
 *
 * k | {"lsn":"16/B374D848"} -> 0 hex:00000016b374d848 | {"lsn":"16/B374D848"}
 * k | {"op":"c","lsn":"0/1"} -> 0 hex:0000000000000001 | {"op":"c","lsn":"0/1"}
 * k | {"lsn":"ffffffff/a0"} -> 0 hex:ffffffff000000a0 | {"lsn":"ffffffff/a0"}
 * k | {"lsn":"16-B3"} -> reject 11
 * k | {"lsn":"1/123456789"} -> reject 11
 * k | {"op":"c"} -> reject 10 */
#include "klog_parts.h"

static int hex_digit(u8 c)
{
	if (c >= '0' && c <= '9')
		return c - '0';
	if (c >= 'a' && c <= 'f')
		return c - 'a' + 10;
	if (c >= 'A' && c <= 'F')
		return c - 'A' + 10;
	return -1;
}

u64 transform(const u8 *value, u64 value_length, const u8 *key, u64 key_length, u64 nulls)
{
	struct span lsn = json_text("lsn");
	u64 halves[2] = {0, 0};
	u64 digits = 0, half = 0;
	u8 text[17], out[8];

	if (!lsn.is_there || lsn.length < 3 || lsn.length > sizeof(text))
		return 10;
	load_value(text, lsn.at, lsn.length);

	for (u64 i = 0; i < lsn.length; i++) {
		int digit = hex_digit(text[i]);

		if (text[i] == '/' && half == 0 && digits > 0) {
			half = 1;
			digits = 0;
			continue;
		}
		if (digit < 0 || digits == 8)
			return 11;
		halves[half] = halves[half] << 4 | digit;
		digits++;
	}
	if (half == 0 || digits == 0)
		return 11;

	u64 position = halves[0] << 32 | halves[1];

	for (int i = 0; i < 8; i++)
		out[i] = position >> (56 - 8 * i);
	return emit(0, out, sizeof(out), value, value_length);
}
