#include "refusal.h"

/* How many requests are answered before one is refused, below 0 without a limit. */
static long granted = -1;
static bool all_refused;

void refuse_memory_after(unsigned requests, bool refuses_all)
{
	granted = (long)requests;
	all_refused = refuses_all;
}

void grant_memory(void)
{
	granted = -1;
}

static bool is_refused(void)
{
	if (granted < 0)
		return false;
	if (granted > 0) {
		granted--;
		return false;
	}
	granted = all_refused ? 0 : -1;
	return true;
}

/* The linker gives each call of malloc and realloc to these. */
void *__real_malloc(size_t length);
void *__real_realloc(void *block, size_t length);
void *__wrap_malloc(size_t length);
void *__wrap_realloc(void *block, size_t length);

void *__wrap_malloc(size_t length)
{
	return is_refused() ? NULL : __real_malloc(length);
}

void *__wrap_realloc(void *block, size_t length)
{
	return is_refused() ? NULL : __real_realloc(block, length);
}

void *granted_malloc(size_t length)
{
	return __real_malloc(length);
}
