/* Compiles rules, and runs them on each line of standard input as a value with a null key: prints the rows that become of
 * it, each after the number of its output, or the code that rejects it.
 *	rules RULES < TEXT */
#include <klog_engine.h>
#include <stdio.h>
#include <string.h>

enum { LONGEST_RULES = 1048576, LONGEST_VALUE = 1048576, OUTPUTS = 64 };

/* Prints the text of a fault, and is the program's status. */
static int print_fault(const char *call, uint32_t fault, size_t place)
{
	char text[64];
	size_t length;
	if (klog_fault_text(fault, place, text, sizeof text, &length) == KLOG_OK)
		fprintf(stderr, "%s: %.*s\n", call, (int)length, text);
	return 1;
}

/* Prints where a text of rules is refused, and why, as `klog rule` does. */
static int print_refusal(uint32_t fault, const klog_spot *spot)
{
	char where[32] = "compile";
	if (fault > KLOG_RULES)
		snprintf(where, sizeof where, "%s %zu", spot->rule ? "rule" : "line", spot->rule ? spot->rule : spot->line);
	return print_fault(where, fault, fault > KLOG_RULES ? spot->column : 0);
}

/* Loads the program of the rules in a file. */
static int load_rules(const char *name, klog_handle *program)
{
	static uint8_t text[LONGEST_RULES], compiled[KLOG_COMPILED];
	FILE *file = fopen(name, "rb");
	if (!file) {
		perror(name);
		return 1;
	}
	size_t length = fread(text, 1, sizeof text, file), written, place = 0;
	fclose(file);
	klog_spot spot;
	uint32_t fault = klog_compile(text, length, compiled, sizeof compiled, &written, &spot);
	if (fault)
		return print_refusal(fault, &spot);
	fault = klog_load(compiled, written, KLOG_TABLE_OWN, program, &place);
	return fault ? print_fault(name, fault, place) : 0;
}

static int print_row(const klog_handle *outcome, size_t number)
{
	static uint8_t value[LONGEST_VALUE];
	klog_emission row;
	uint32_t fault = klog_emission_at(outcome, number, &row);
	if (!fault)
		fault = klog_emission_value(outcome, number, value, sizeof value);
	if (fault)
		return print_fault("row", fault, 0);
	printf("%zu %.*s\n", row.output, (int)row.value_length, (const char *)value);
	return 0;
}

/* Prints what becomes of a line. */
static int run_line(const klog_handle *program, const char *line, uint64_t offset)
{
	klog_handle outcome = KLOG_NOTHING;
	klog_record record = {.value = (const uint8_t *)line, .value_length = strlen(line), .offset = offset, .outputs = OUTPUTS};
	uint64_t code;
	size_t rows;
	uint32_t fault = klog_run(program, &record, &outcome);
	if (!fault)
		fault = klog_outcome(&outcome, &code, &rows);
	int status = fault ? print_fault("run", fault, 0) : 0;
	if (!fault && code)
		printf("reject %llu\n", (unsigned long long)code);
	for (size_t k = 0; !fault && !status && k < rows; k++)
		status = print_row(&outcome, k);
	klog_free(&outcome);
	return status;
}

int main(int count, char **words)
{
	static char line[LONGEST_VALUE];
	klog_handle program = KLOG_NOTHING;
	if (count != 2) {
		fprintf(stderr, "usage: rules RULES < TEXT\n");
		return 2;
	}
	int status = load_rules(words[1], &program);
	for (uint64_t offset = 0; !status && fgets(line, sizeof line, stdin); offset++) {
		line[strcspn(line, "\n")] = 0;
		status = run_line(&program, line, offset);
	}
	klog_free(&program);
	return status;
}
