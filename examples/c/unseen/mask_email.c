/* A value is an address of mail of up to 64 bytes. Emits it with stars in place of what stands before the @, but for the first letter.
 *
 * k | anna@example.org -> 0 k | a***@example.org
 * k | b@c.d -> 0 k | b@c.d
 * k | @c.d -> reject 2
 * k | nobody -> reject 2 */
#include "klog.h"

u64 transform(const u8 *value, u64 value_length, const u8 *key, u64 key_length, u64 nulls)
{
	u8 masked[64];
	u64 at;

	if (value_length > sizeof(masked))
		return 1;

	const u8 *sign = memchr(value, '@', value_length);

	if (!sign || sign == value)
		return 2;
	at = sign - value;
	masked[0] = value[0];
	for (u64 i = 1; i < value_length; i++)
		masked[i] = i < at ? '*' : value[i];
	return emit_value(0, masked, value_length);
}
