/* What C programs include for memcmp and the like. klogc copies them to each call. */
#ifndef KLOG_STRING_H
#define KLOG_STRING_H
#include <stddef.h>

void *memcpy(void *to, const void *from, size_t n);
void *memmove(void *to, const void *from, size_t n);
void *memset(void *to, int byte, size_t n);
void *memchr(const void *from, int byte, size_t n);
size_t strlen(const char *text);
int strcmp(const char *a, const char *b);
int strncmp(const char *a, const char *b, size_t n);

#ifdef __clang__
int memcmp(const void *a, const void *b, size_t n);
#else
/* What compiler.py makes of a call is not there for another compiler. */
static inline __attribute__((always_inline)) int klog_compare(const void *a, const void *b, size_t n)
{
	for (size_t i = 0; i < n; i++)
		if (((const unsigned char *)a)[i] != ((const unsigned char *)b)[i])
			return ((const unsigned char *)a)[i] < ((const unsigned char *)b)[i] ? -1 : 1;
	return 0;
}

#define memcmp klog_compare
#endif

#endif
