/* A value is an MQTT PUBLISH packet of quality 0: a byte 0x30, the length of what follows as 1 to 4 bytes of 7 bits, a topic after its
 * length in 2 bytes, and the payload. Emits the payload with the topic as key.
 *
 * k | hex:300700036162635859 -> 0 abc | XY
 * k | hex:30050003616263 -> 0 abc | hex:
 * k | hex:3105000361 -> reject 1
 * k | hex:300900036162635859 -> reject 2
 * k | hex:30ff -> reject 2
 */
#include "klog.h"

u64 transform(const u8 *value, u64 value_length, const u8 *key, u64 key_length, u64 nulls)
{
	if (value_length < 2 || value[0] != 0x30)
		return 1;
	u32 length = 0;
	u64 at = 1;
	for (int shift = 0;; shift += 7) {
		if (at >= value_length || shift > 21)
			return 2;
		u8 b = value[at++];
		length |= (u32)(b & 0x7f) << shift;
		if (!(b & 0x80))
			break;
	}
	if (value_length - at != length || length < 2)
		return 2;
	u32 topic = value[at] << 8 | value[at + 1];
	at += 2;
	if (topic > value_length - at)
		return 3;
	return emit(0, value + at, topic, value + at + topic, value_length - at - topic);
}
