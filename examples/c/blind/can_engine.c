/* Reads frames of a truck's CAN bus (SAE J1939: four bytes of identifier, eight of data) and reports the engine's speed, the
 * temperature of its coolant and the battery's voltage. Frames of other groups, and signals that aren't available, are dropped.
 *
 * truck1 | hex:0cf00400ffffff6813ffffff -> 0 truck1 | rpm 621
 * truck1 | hex:18feee007affffffffffffff -> 0 truck1 | coolant 82
 * truck1 | hex:18feee001effffffffffffff -> 0 truck1 | coolant -10
 * truck1 | hex:18fef700ffffffff1801ffff -> 0 truck1 | battery_mv 14000
 * truck1 | hex:18feee00ffffffffffffffff -> nothing
 * truck1 | hex:18fef100ffffffffffffffff -> nothing
 * truck1 | hex:18feee -> reject 90 */
#include "klog.h"

#define ENGINE_SPEED 61444
#define ENGINE_TEMPERATURE 65262
#define ELECTRICAL_POWER 65271

static u64 report(const char *name, int number)
{
	u8 text[32], digits[12];
	u64 length = strlen(name), count = 0;
	u32 rest = number < 0 ? -number : number;

	memcpy(text, name, length);
	text[length++] = ' ';
	if (number < 0)
		text[length++] = '-';
	do {
		digits[count++] = '0' + rest % 10;
		rest /= 10;
	} while (rest > 0);
	while (count > 0)
		text[length++] = digits[--count];
	return emit_value(0, text, length);
}

u64 transform(const u8 *value, u64 value_length, const u8 *key, u64 key_length, u64 nulls)
{
	if (value_length != 12)
		return 90;

	u32 id = (u32)value[0] << 24 | value[1] << 16 | value[2] << 8 | value[3];
	const u8 *data = value + 4;
	int raw;

	switch (id >> 8 & 0x3ffff) {
	case ENGINE_SPEED:
		raw = data[3] | data[4] << 8;
		return raw < 0xfb00 ? report("rpm", raw / 8) : 0;
	case ENGINE_TEMPERATURE:
		return data[0] < 0xfb ? report("coolant", data[0] - 40) : 0;
	case ELECTRICAL_POWER:
		raw = data[4] | data[5] << 8;
		return raw < 0xfb00 ? report("battery_mv", raw * 50) : 0;
	}
	return 0;
}
