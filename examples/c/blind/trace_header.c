/* Routes by the W3C header traceparent: sampled traces to output 1, others to 0, and adds the trace's number as the header trace-id. A
 * record without one gets the header origin, its input partition and offset, and goes to output 0; a header of another form is
 * rejected with 10.
 *
 * k | a with traceparent=00 -> reject 10
 * k | a with traceparent=00-0123456789abcdef0123456789abcdef-0123456789abcdef-0x -> reject 10
 * k | a with traceparent=00_0123456789abcdef0123456789abcdef-0123456789abcdef-01 -> reject 10
 * k | a -> 0 k | a */
#include "klog_parts.h"

enum { TRACE = 3, SPAN = 36, FLAGS = 53, PARENT_LENGTH = 55 };

static int hex_digit(char c)
{
	if (c >= '0' && c <= '9')
		return c - '0';
	return c >= 'a' && c <= 'f' ? c - 'a' + 10 : -1;
}

static int is_hex(const char *text, int length)
{
	for (int i = 0; i < length; i++)
		if (hex_digit(text[i]) < 0)
			return 0;
	return 1;
}

static u64 put_number(char *out, u64 number)
{
	char digits[20];
	u64 n = 0, length = 0;

	do {
		digits[n++] = '0' + number % 10;
	} while (number /= 10);
	while (n > 0)
		out[length++] = digits[--n];
	return length;
}

static u64 mark_origin(void)
{
	char origin[2 + 1 + 20];
	u64 length = put_number(origin, record_partition());

	origin[length++] = '/';
	length += put_number(origin + length, record_offset());
	return add_header("origin", 6, origin, length) ? 11 : emit_record(0);
}

u64 transform(const u8 *value, u64 value_length, const u8 *key, u64 key_length, u64 nulls)
{
	char parent[PARENT_LENGTH];
	u64 position = header("traceparent", 11);

	if (position == 0)
		return mark_origin();
	if (header_value(parent, position - 1, sizeof parent) != PARENT_LENGTH + 2)
		return 10;
	if (strncmp(parent, "00-", 3) != 0 || parent[SPAN - 1] != '-' || parent[FLAGS - 1] != '-')
		return 10;
	if (!is_hex(parent + TRACE, 32) || !is_hex(parent + SPAN, 16) || !is_hex(parent + FLAGS, 2))
		return 10;
	if (add_header("trace-id", 8, parent + TRACE, 32))
		return 11;
	return emit_record(hex_digit(parent[FLAGS + 1]) & 1);
}
