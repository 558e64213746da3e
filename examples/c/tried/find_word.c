/* Sends log lines that have the word ERROR in their first 64 bytes to output 1, and the others to output 0.
 *
 * k | 2026-11-26 ERROR disk full -> 1 k | 2026-11-26 ERROR disk full
 * k | ERROR -> 1 k | ERROR
 * k | 2026-11-26 INFO started -> 0 k | 2026-11-26 INFO started
 * k | ERRO -> 0 k | ERRO
 * k | 0123456789*6 -> 0 k | 0123456789*6 */
#include "klog.h"

u64 transform(const u8 *value, u64 value_length, const u8 *key, u64 key_length, u64 nulls)
{
	for (u64 i = 0; i < 60; i++)
		if (i + 5 <= value_length && memcmp(value + i, "ERROR", 5) == 0)
			return emit_record(1);
	return emit_record(0);
}
