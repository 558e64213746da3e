/* Memory that runs out when a target says so: the targets are linked with -Wl,--wrap=malloc -Wl,--wrap=realloc. */
#ifndef REFUSAL_H
#define REFUSAL_H

#include <stdbool.h>
#include <stddef.h>

/* From now on this many requests for memory are answered, and then one is refused, or all are. */
void refuse_memory_after(unsigned requests, bool refuses_all);

/* No request is refused from now on. */
void grant_memory(void);

/* A block of memory that is not refused. */
void *granted_malloc(size_t length);

#endif
