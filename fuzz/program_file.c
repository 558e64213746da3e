#include "program_file.h"
#include "klog_engine.h"
#include "plain.h"
#include "refusal.h"

#include <stdio.h>
#include <stdlib.h>
#include <string.h>

enum { MARK = 4, HEAD = 16, VERSION = 1, TABLES = 3, LONGEST_LINE = 32 };

static const uint8_t mark[MARK] = {'K', 'L', 'O', 'G'};

/* A number of 32 bits, the lowest byte first. */
static uint32_t number_at(const uint8_t *bytes)
{
	return bytes[0] | (uint32_t)bytes[1] << 8 | (uint32_t)bytes[2] << 16 | (uint32_t)bytes[3] << 24;
}

static void put_number(uint8_t *bytes, uint32_t number)
{
	for (unsigned k = 0; k < 4; k++)
		bytes[k] = (uint8_t)(number >> 8 * k);
}

/* Whether a line is a slot from `*least` on and below `slots`, a space and a text. The next least slot. */
static bool is_line(const uint8_t *line, size_t length, uint64_t *least, uint64_t slots)
{
	uint64_t slot = 0;
	size_t at = 0;
	for (; at < length && at < 10 && line[at] >= '0' && line[at] <= '9'; at++)
		slot = 10 * slot + (uint64_t)(line[at] - '0');
	bool is_padded = at > 1 && line[0] == '0';
	if (!at || is_padded || slot < *least || slot >= slots || length < at + 2 || line[at] != ' ')
		return false;
	*least = slot + 1;
	return is_utf8((struct part){line + at + 1, length - at - 1, false});
}

static bool are_lines(const uint8_t *bytes, size_t length, uint64_t slots)
{
	uint64_t least = 0;
	for (size_t at = 0; at < length;) {
		const uint8_t *end = memchr(bytes + at, '\n', length - at);
		if (!end || !is_line(bytes + at, (size_t)(end - bytes) - at, &least, slots))
			return false;
		at = (size_t)(end - bytes) + 1;
	}
	return true;
}

/* The fault of a program file, or KLOG_OK. */
static uint32_t file_fault(const uint8_t *bytes, size_t length, uint32_t named)
{
	if (length < HEAD)
		return KLOG_FILE + 1;
	if (number_at(bytes + 4) != VERSION)
		return KLOG_FILE + 2;
	uint32_t table = number_at(bytes + 8), size = number_at(bytes + 12);
	if (table < 1 || table > TABLES)
		return KLOG_FILE + 3;
	if (length - HEAD < size)
		return KLOG_FILE + 1;
	if (!are_lines(bytes + HEAD + size, length - HEAD - size, size / 8))
		return KLOG_FILE + 4;
	return named == KLOG_TABLE_OWN || named == table ? KLOG_OK : KLOG_FILE + 3;
}

struct plain_program read_program(const uint8_t *bytes, size_t length, uint32_t named)
{
	if (length < MARK || memcmp(bytes, mark, MARK))
		return (struct plain_program){0, false, named == KLOG_TABLE_OWN ? KLOG_TABLE_ONE : named, bytes, length};
	uint32_t fault = file_fault(bytes, length, named);
	if (fault)
		return (struct plain_program){fault, true, 0, NULL, 0};
	return (struct plain_program){0, true, number_at(bytes + 8), bytes + HEAD, number_at(bytes + 12)};
}

uint8_t *program_file_of(const uint8_t *image, size_t length, uint32_t table, unsigned stride, size_t *made)
{
	size_t slots = length / 8, lines = stride ? (slots + stride - 1) / stride : 0;
	uint8_t *room = granted_malloc(HEAD + length + lines * LONGEST_LINE);
	if (!room)
		fail("malloc", length);
	memcpy(room, mark, MARK);
	put_number(room + 4, VERSION);
	put_number(room + 8, table);
	put_number(room + 12, (uint32_t)length);
	if (length)
		memcpy(room + HEAD, image, length);
	*made = HEAD + length;
	for (size_t k = 0; k < lines; k++)
		*made += (size_t)snprintf((char *)room + *made, LONGEST_LINE, "%zu a.c:%zu\n", k * stride, k + 1);
	uint8_t *file = copy_of(room, *made);
	free(room);
	return file;
}
