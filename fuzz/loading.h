/* Loads and explains a program, each as it is and without memory, and compares: for transform_fuzz.c. */
#ifndef LOADING_H
#define LOADING_H

#include "klog_engine.h"

#include <stdbool.h>
#include <stddef.h>
#include <stdint.h>

/* An image or a program file, the table that is named, and the request for memory that is refused. */
struct loading {
	uint8_t *bytes;
	size_t length;
	uint32_t table;
	unsigned refused;
	bool refuses_all;
};

struct load_counts {
	unsigned long accepted, refused, files, table_three, refusals;
};

extern struct load_counts load_counts;

/* Whether a table can be named. */
bool is_known_table(uint32_t table);

/* Whether a call, without memory from some request on, was refused and left its handle. */
bool is_refused(const char *call, uint32_t fault, klog_handle before, klog_handle after);

/* Loads a program. Its fault has to be that of a plain reader of program files, and the same image has to be accepted or
 * refused by the other form too, at the same place. Whether it is accepted. */
bool load(const struct loading *it, klog_handle *program);

/* Explains it: the last line has to say whether it is accepted. */
void explain(const struct loading *it, bool is_accepted, bool is_refused_alone);

#endif
