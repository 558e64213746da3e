/* A key is a path as s3://bucket/a/b/file.csv. Emits the record with the file's name as key, and to output 1 if it ends in .csv or .CSV.
 *
 * s3://bucket/a/file.csv | v -> 1 file.csv | v
 * s3://bucket/FILE.CSV | v -> 1 FILE.CSV | v
 * s3://bucket/a/b | v -> 0 b | v
 * file | v -> 0 file | v
 * s3://bucket/ | v -> reject 1
 */
#include "klog.h"

u64 transform(const u8 *value, u64 value_length, const u8 *key, u64 key_length, u64 nulls)
{
	if (key_length > 128)
		return 2;
	u64 start = key_length;
	while (start > 0 && key[start - 1] != '/')
		start--;
	u64 n = key_length - start;
	if (n == 0)
		return 1;
	const u8 *name = key + start;
	u64 output = 0;
	if (n >= 4) {
		const u8 *end = name + n - 4;
		if (memcmp(end, ".csv", 4) == 0 || memcmp(end, ".CSV", 4) == 0)
			output = 1;
	}
	return emit(output, name, n, value, value_length);
}
