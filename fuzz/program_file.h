/* Program files read and made plainly, as docs/reference/machine.md says, with no code of klog's: for the fuzz targets. */
#ifndef PROGRAM_FILE_H
#define PROGRAM_FILE_H

#include <stdbool.h>
#include <stddef.h>
#include <stdint.h>

/* What bytes are as a program, by the table that is named or KLOG_TABLE_OWN: the image and the table of a program file, or
 * its fault of 401 to 404. Bytes that begin as no program file are an image. */
struct plain_program {
	uint32_t fault;
	bool is_file;
	uint32_t table;
	const uint8_t *image;
	size_t length;
};

struct plain_program read_program(const uint8_t *bytes, size_t length, uint32_t named);

/* An image in a program file of a table, in a block of its own, whose length goes to `*made`. Each slot that `stride`
 * divides has a line; none has one if that is 0. */
uint8_t *program_file_of(const uint8_t *image, size_t length, uint32_t table, unsigned stride, size_t *made);

#endif
