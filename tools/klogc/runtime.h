/* Functions of C that a compiler calls where it does not inline them: klogc copies them to each call, or writes what does the same.
 * It includes this file before the source. They are in a section of their own, by which klogc knows them. */
#define KLOG_SECTION section("klog_runtime")
#define KLOG_OWN(result, name, ...) \
	result klog_own_##name(__VA_ARGS__) __asm__(#name); \
	__attribute__((noinline, weak, no_builtin, KLOG_SECTION)) result klog_own_##name(__VA_ARGS__)

/* A source may have these itself. */
#ifndef KLOG_OWN_FUNCTIONS

KLOG_OWN(int, memcmp, const void *a, const void *b, unsigned long n)
{
	for (unsigned long i = 0; i < n; i++)
		if (((const unsigned char *)a)[i] != ((const unsigned char *)b)[i])
			return ((const unsigned char *)a)[i] < ((const unsigned char *)b)[i] ? -1 : 1;
	return 0;
}

KLOG_OWN(int, bcmp, const void *a, const void *b, unsigned long n)
{
	for (unsigned long i = 0; i < n; i++)
		if (((const unsigned char *)a)[i] != ((const unsigned char *)b)[i])
			return 1;
	return 0;
}

KLOG_OWN(void *, memcpy, void *to, const void *from, unsigned long n)
{
	for (unsigned long i = 0; i < n; i++)
		((unsigned char *)to)[i] = ((const unsigned char *)from)[i];
	return to;
}

KLOG_OWN(void *, memmove, void *to, const void *from, unsigned long n)
{
	if ((const unsigned char *)to <= (const unsigned char *)from)
		for (unsigned long i = 0; i < n; i++)
			((unsigned char *)to)[i] = ((const unsigned char *)from)[i];
	else
		for (unsigned long i = n; i-- > 0;)
			((unsigned char *)to)[i] = ((const unsigned char *)from)[i];
	return to;
}

KLOG_OWN(void *, memset, void *to, int byte, unsigned long n)
{
	for (unsigned long i = 0; i < n; i++)
		((unsigned char *)to)[i] = byte;
	return to;
}

KLOG_OWN(void *, memchr, const void *from, int byte, unsigned long n)
{
	for (unsigned long i = 0; i < n; i++)
		if (((const unsigned char *)from)[i] == (unsigned char)byte)
			return (unsigned char *)from + i;
	return 0;
}

KLOG_OWN(unsigned long, strlen, const char *text)
{
	unsigned long n = 0;

	while (text[n])
		n++;
	return n;
}

KLOG_OWN(int, strncmp, const char *a, const char *b, unsigned long n)
{
	for (unsigned long i = 0; i < n; i++) {
		if (a[i] != b[i])
			return (unsigned char)a[i] < (unsigned char)b[i] ? -1 : 1;
		if (!a[i])
			return 0;
	}
	return 0;
}

KLOG_OWN(int, strcmp, const char *a, const char *b)
{
	for (unsigned long i = 0;; i++) {
		if (a[i] != b[i])
			return (unsigned char)a[i] < (unsigned char)b[i] ? -1 : 1;
		if (!a[i])
			return 0;
	}
}

#endif

/* What compiler.py puts in place of memcpy, memcmp and the like. */
#define KLOG_PUT __attribute__((noinline, used, no_builtin, KLOG_SECTION)) static

KLOG_PUT void *klog_memcpy(void *to, const void *from, unsigned long n)
{
	for (unsigned long i = 0; i < n; i++)
		((unsigned char *)to)[i] = ((const unsigned char *)from)[i];
	return to;
}

KLOG_PUT void *klog_memmove(void *to, const void *from, unsigned long n)
{
	if ((const unsigned char *)to <= (const unsigned char *)from)
		for (unsigned long i = 0; i < n; i++)
			((unsigned char *)to)[i] = ((const unsigned char *)from)[i];
	else
		for (unsigned long i = n; i-- > 0;)
			((unsigned char *)to)[i] = ((const unsigned char *)from)[i];
	return to;
}

KLOG_PUT void *klog_memset(void *to, unsigned char byte, unsigned long n)
{
	for (unsigned long i = 0; i < n; i++)
		((unsigned char *)to)[i] = byte;
	return to;
}

KLOG_PUT int klog_memcmp(const void *a, const void *b, unsigned long n)
{
	for (unsigned long i = 0; i < n; i++)
		if (((const unsigned char *)a)[i] != ((const unsigned char *)b)[i])
			return ((const unsigned char *)a)[i] < ((const unsigned char *)b)[i] ? -1 : 1;
	return 0;
}

/* Whether bytes differ. All of them are read. */
KLOG_PUT unsigned long klog_bcmp(const void *a, const void *b, unsigned long n)
{
	unsigned long different = 0;

	for (unsigned long i = 0; i < n; i++)
		different |= ((const unsigned char *)a)[i] ^ ((const unsigned char *)b)[i];
	return different;
}
