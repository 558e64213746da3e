/* The kit's clang has the thread sanitizer see moves of memory by these names, which Debian's runtime lacks. There the plain
 * functions are seen. This file is compiled without a sanitizer. */
#include <stddef.h>
#include <string.h>

#define WEAK __attribute__((weak))

void *__tsan_memcpy(void *to, const void *from, size_t length);
void *__tsan_memmove(void *to, const void *from, size_t length);
void *__tsan_memset(void *to, int byte, size_t length);

WEAK void *__tsan_memcpy(void *to, const void *from, size_t length)
{
	return memcpy(to, from, length);
}

WEAK void *__tsan_memmove(void *to, const void *from, size_t length)
{
	return memmove(to, from, length);
}

WEAK void *__tsan_memset(void *to, int byte, size_t length)
{
	return memset(to, byte, length);
}
