/* Keeps large values out of the main stream: one over 64 KiB goes to output 1, and output 0 gets its first sixteen bytes and
 * its size instead.
 *
 * img9 | small -> 0 img9 | small
 * img9 | null -> 0 img9 | null
 * img9 | a*65536 -> 0 img9 | a*65536
 * img9 | a*70000 -> 1 img9 | a*70000 + 0 img9 | aaaaaaaaaaaaaaaa... 70000 bytes */
#include "klog.h"

#define LIMIT 65536
#define SHOWN 16

static u64 put_number(u8 *to, u64 number)
{
	u8 digits[20];
	u64 count = 0, length = 0;

	do {
		digits[count++] = '0' + number % 10;
		number /= 10;
	} while (number > 0);
	while (count > 0)
		to[length++] = digits[--count];
	return length;
}

u64 transform(const u8 *value, u64 value_length, const u8 *key, u64 key_length, u64 nulls)
{
	u8 notice[48];
	u64 length = SHOWN;

	if (value_length <= LIMIT)
		return emit_record(0);

	memcpy(notice, value, SHOWN);
	memcpy(notice + length, "... ", 4);
	length += 4;
	length += put_number(notice + length, value_length);
	memcpy(notice + length, " bytes", 6);
	length += 6;

	u64 failed = emit_record(1);

	return failed ? failed : emit_value(0, notice, length);
}
