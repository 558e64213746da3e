/* Runs a program on each line of standard input as a value with a null key and a header, and prints what it makes of it.
 *	lines IMAGE < TEXT */
#include <klog_engine.h>
#include <stdio.h>
#include <string.h>

enum { LONGEST_PROGRAM = 8388608, LONGEST_KEY = 4096, LONGEST_VALUE = 1048576 };
enum { LONGEST_HEADER_KEY = 255, LONGEST_HEADER_VALUE = 4096 };

/* Prints the text of a fault, and is the program's status. */
static int print_fault(const char *call, uint32_t fault, size_t place)
{
	char text[64];
	size_t length;
	if (klog_fault_text(fault, place, text, sizeof text, &length) == KLOG_OK)
		fprintf(stderr, "%s: %.*s\n", call, (int)length, text);
	return 1;
}

static int load(const char *name, klog_handle *program)
{
	static uint8_t image[LONGEST_PROGRAM];
	FILE *file = fopen(name, "rb");
	if (!file) {
		perror(name);
		return 1;
	}
	size_t length = fread(image, 1, sizeof image, file), place = 0;
	fclose(file);
	uint32_t fault = klog_load(image, length, KLOG_TABLE_OWN, program, &place);
	return fault ? print_fault(name, fault, place) : 0;
}

static void print_part(const uint8_t *part, size_t length, int is_null)
{
	if (is_null)
		printf("null");
	else
		fwrite(part, 1, length, stdout);
}

static int print_header(klog_handle *outcome, size_t number, size_t at)
{
	static uint8_t key[LONGEST_HEADER_KEY], value[LONGEST_HEADER_VALUE];
	klog_header header;
	uint32_t fault = klog_emission_header(outcome, number, at, &header);
	if (!fault)
		fault = klog_emission_header_key(outcome, number, at, key, sizeof key);
	if (!fault)
		fault = klog_emission_header_value(outcome, number, at, value, sizeof value);
	if (fault)
		return print_fault("header", fault, 0);
	printf("    header ");
	print_part(key, header.key_length, 0);
	printf(" ");
	print_part(value, header.value_length, header.nulls & KLOG_NULL_VALUE);
	printf("\n");
	return 0;
}

static int print_emission(klog_handle *outcome, size_t number)
{
	static uint8_t key[LONGEST_KEY], value[LONGEST_VALUE];
	klog_emission emission;
	uint32_t fault = klog_emission_at(outcome, number, &emission);
	if (!fault)
		fault = klog_emission_key(outcome, number, key, sizeof key);
	if (!fault)
		fault = klog_emission_value(outcome, number, value, sizeof value);
	if (fault)
		return print_fault("emission", fault, 0);
	printf("  to %zu key ", emission.output);
	print_part(key, emission.key_length, emission.nulls & KLOG_NULL_KEY);
	printf(" value ");
	print_part(value, emission.value_length, emission.nulls & KLOG_NULL_VALUE);
	printf("\n");
	for (size_t at = 0; at < emission.header_count; at++)
		if (print_header(outcome, number, at))
			return 1;
	return 0;
}

/* Puts the number of a line into a header. */
static uint32_t number_line(klog_handle *headers, uint64_t number)
{
	char text[24];
	int length = snprintf(text, sizeof text, "%llu", (unsigned long long)number);
	klog_free(headers);
	return klog_add_header(headers, (const uint8_t *)"line", 4, (const uint8_t *)text, (size_t)length);
}

static int run(klog_handle *program, klog_handle *headers, klog_handle *outcome, const char *line, uint64_t offset)
{
	klog_record record = {0};
	record.value = (const uint8_t *)line;
	record.value_length = strlen(line);
	record.offset = offset;
	record.outputs = 2;
	record.headers = headers;
	uint64_t code;
	size_t count;
	uint32_t fault = number_line(headers, offset + 1);
	if (!fault)
		fault = klog_run(program, &record, outcome);
	if (!fault)
		fault = klog_outcome(outcome, &code, &count);
	if (fault)
		return print_fault("run", fault, 0);
	if (code)
		printf("%s: rejected with code %llu\n", line, (unsigned long long)code);
	else
		printf("%s: kept, emissions %zu\n", line, count);
	for (size_t k = 0; k < count; k++)
		if (print_emission(outcome, k))
			return 1;
	return 0;
}

int main(int argc, char **argv)
{
	static char line[LONGEST_VALUE + 2]; /* with its end, and a zero byte */
	klog_handle program = KLOG_NOTHING, headers = KLOG_NOTHING, outcome = KLOG_NOTHING;
	if (argc != 2) {
		fprintf(stderr, "usage: lines IMAGE < TEXT\n");
		return 2;
	}
	int status = load(argv[1], &program);
	for (uint64_t offset = 0; !status && fgets(line, sizeof line, stdin); offset++) {
		line[strcspn(line, "\n")] = 0;
		status = run(&program, &headers, &outcome, line, offset);
	}
	klog_free(&outcome);
	klog_free(&headers);
	klog_free(&program);
	return status;
}
