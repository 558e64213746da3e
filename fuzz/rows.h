/* The rows that outputs have, by klog_run on each record and by a plain reader of batches: for transform_fuzz.c. */
#ifndef ROWS_H
#define ROWS_H

#include "klog_engine.h"
#include "plain.h"

#include <stddef.h>
#include <stdint.h>

enum { MOST_OUTPUTS = 64 };

/* The rows of an output, spelled one after the other. */
struct rows {
	uint8_t *bytes;
	size_t length, room, count;
};

/* What the calls of single records need, and what they count. */
struct single {
	klog_handle *program, headers, outcome;
	const klog_source *source;
	struct rows rows[MOST_OUTPUTS];
	uint64_t records, kept, rejected;
};

/* Runs the program on each record of batches, which are read plainly. How many batches there are. */
size_t run_each(struct single *run, const uint8_t *bytes, size_t length);

void free_single(struct single *run);

/* Reads the batches of an output plainly; each has as many rows as it takes. */
struct rows rows_of(const uint8_t *bytes, const klog_output *told);

#endif
