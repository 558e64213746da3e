/* Decodes a LoRaWAN payload in Cayenne's format (a channel, a type and one or two bytes of data for each reading), and emits
 * each reading as a text: its channel, its name and its number.
 *
 * node1 | hex:03670110056700ff -> 0 node1 | 3 temp 27.2 + 0 node1 | 5 temp 25.5
 * node1 | hex:0167ffd7 -> 0 node1 | 1 temp -4.1
 * node1 | hex:026864000001 -> 0 node1 | 2 humidity 50.0 + 0 node1 | 0 din 1
 * node1 | hex:0a02fffd0c650400 -> 0 node1 | 10 analog -0.03 + 0 node1 | 12 lux 1024
 * node1 | hex:0167ff -> reject 12
 * node1 | hex:0199 -> reject 12
 * node1 | hex:01 -> reject 11 */
#include "klog.h"

struct kind {
	u8 type, size, is_signed, factor, decimals;
	char name[11];
};

static const struct kind kinds[] = {
	{0, 1, 0, 1, 0, "din"}, {1, 1, 0, 1, 0, "dout"}, {2, 2, 1, 1, 2, "analog"}, {101, 2, 0, 1, 0, "lux"},
	{103, 2, 1, 1, 1, "temp"}, {104, 1, 0, 5, 1, "humidity"}, {0, 0, 0, 0, 0, ""},
};

/* Writes a number, the last digits of which are its decimals, and returns how many bytes it took. */
static u64 put_number(u8 *to, int number, u64 decimals)
{
	u8 digits[12];
	u64 count = 0, length = 0;
	u32 rest = number < 0 ? -number : number;

	do {
		digits[count++] = '0' + rest % 10;
		rest /= 10;
	} while (rest > 0 || count <= decimals);
	if (number < 0)
		to[length++] = '-';
	while (count > 0) {
		if (count == decimals)
			to[length++] = '.';
		to[length++] = digits[--count];
	}
	return length;
}

u64 transform(const u8 *value, u64 value_length, const u8 *key, u64 key_length, u64 nulls)
{
	u64 at = 0;

	if (value_length > 51)
		return 10;
	while (at < value_length) {
		if (value_length - at < 2)
			return 11;

		const struct kind *kind = kinds;

		while (kind->size > 0 && kind->type != value[at + 1])
			kind++;
		if (kind->size == 0 || value_length - at < 2 + kind->size)
			return 12;

		int number = kind->size == 1 ? value[at + 2] : value[at + 2] << 8 | value[at + 3];

		if (kind->is_signed && number >= 0x8000)
			number -= 0x10000;

		u8 text[40];
		u64 length = put_number(text, value[at], 0), name_length = strlen(kind->name);

		text[length++] = ' ';
		memcpy(text + length, kind->name, name_length);
		length += name_length;
		text[length++] = ' ';
		length += put_number(text + length, number * kind->factor, kind->decimals);
		if (emit_value(0, text, length))
			return 13;
		at += 2 + kind->size;
	}
	return 0;
}
