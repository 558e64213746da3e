/* Cuts a value into chunks of 4096 bytes for a sink that takes no larger ones, and tells their count in a header. A value that
 * needs more than sixteen is rejected.
 *
 * doc | short -> 0 doc | short
 * doc | a*4096 -> 0 doc | a*4096
 * doc | a*5000 -> 0 doc | a*4096 + 0 doc | a*904
 * doc | b*8192 -> 0 doc | b*4096 + 0 doc | b*4096
 * doc | a*65537 -> reject 30 */
#include "klog_parts.h"

#define CHUNK 4096

u64 transform(const u8 *value, u64 value_length, const u8 *key, u64 key_length, u64 nulls)
{
	u64 count = (value_length + CHUNK - 1) / CHUNK;

	if (count <= 1)
		return emit_record(0);
	if (count > 16)
		return 30;

	u8 text[2] = {'0' + count / 10, '0' + count % 10};

	if (add_header("chunks", 6, text, 2))
		return 31;

	for (u64 at = 0; at < value_length; at += CHUNK) {
		u64 left = value_length - at;
		u64 failed = emit_part(0, VALUE, at, left < CHUNK ? left : CHUNK);

		if (failed)
			return failed;
	}
	return 0;
}
