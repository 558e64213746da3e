/* Gives a record the kind of file that its value is as key, by its first bytes: png, gif, zip, pdf, gzip, or none.
 *
 * k | hex:89504e470d0a1a0a00 -> 0 png | hex:89504e470d0a1a0a00
 * k | GIF89a -> 0 gif | GIF89a
 * k | PK\x03\x04x -> 0 zip | hex:504b030478
 * k | %PDF-1.4 -> 0 pdf | %PDF-1.4
 * k | hex:1f8b08 -> 0 gzip | hex:1f8b08
 * k | hello -> 0 none | hello
 * k | -> 0 none | */
#include "klog.h"

static int has(const u8 *value, u64 value_length, const char *magic, u64 n)
{
	if (value_length < n)
		return 0;
	for (u64 i = 0; i < n; i++)
		if (value[i] != (u8)magic[i])
			return 0;
	return 1;
}

u64 transform(const u8 *value, u64 value_length, const u8 *key, u64 key_length, u64 nulls)
{
	const char *kind = "none";

	if (has(value, value_length, "\x89PNG\r\n\x1a\n", 8))
		kind = "png";
	else if (has(value, value_length, "GIF8", 4))
		kind = "gif";
	else if (has(value, value_length, "PK\3\4", 4))
		kind = "zip";
	else if (has(value, value_length, "%PDF-", 5))
		kind = "pdf";
	else if (has(value, value_length, "\x1f\x8b", 2))
		kind = "gzip";
	return emit(0, kind, strlen(kind), value, value_length);
}
