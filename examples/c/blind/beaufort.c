/* Turns a wind speed, in tenths of a metre per second, into its force on the Beaufort scale.
 *
 * mast3 | 0 -> 0 mast3 | 0
 * mast3 | 3 -> 0 mast3 | 1
 * mast3 | 79 -> 0 mast3 | 4
 * mast3 | 284 -> 0 mast3 | 10
 * mast3 | 400 -> 0 mast3 | 12
 * mast3 | calm -> reject 10 */
#include "klog_parts.h"

static const u16 limits[12] = {3, 16, 34, 55, 80, 108, 139, 172, 208, 245, 285, 327};

u64 transform(const u8 *value, u64 value_length, const u8 *key, u64 key_length, u64 nulls)
{
	if (value_length < 1 || value_length > 5)
		return 10;

	u64 speed = decimal(VALUE, 0, value_length);

	if (speed == 0)
		return 10;
	speed--;

	u64 force = 0;

	while (force < 12 && speed >= limits[force])
		force++;

	u8 text[2] = {'0' + force / 10, '0' + force % 10};

	return force < 10 ? emit_value(0, text + 1, 1) : emit_value(0, text, 2);
}
