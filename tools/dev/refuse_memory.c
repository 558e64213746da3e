/* Refuses one request for memory of the program beside which it is loaded: the one with the number in the variable REFUSE,
   counting from 1. The file that REFUSE_COUNT names has eight bytes, in which it counts the requests, however the program ends.
   Requests that the C library makes for itself are neither counted nor refused. tools/dev/refuse_each.py builds and uses it. */
#define _GNU_SOURCE
#include <fcntl.h>
#include <link.h>
#include <stdatomic.h>
#include <stdint.h>
#include <stdlib.h>
#include <sys/auxv.h>
#include <sys/mman.h>

extern void *__libc_malloc(size_t size);
extern void *__libc_realloc(void *block, size_t size);

static uintptr_t first, end;
static long refused;
static atomic_long uncounted, *requests = &uncounted;

/* Where the program's code lies. */
__attribute__((constructor)) static void look(void)
{
    const ElfW(Phdr) *headers = (const ElfW(Phdr) *)getauxval(AT_PHDR);
    unsigned long count = getauxval(AT_PHNUM);
    const char *number = getenv("REFUSE");
    uintptr_t base = 0;
    for (unsigned long i = 0; i < count; i++)
        if (headers[i].p_type == PT_PHDR)
            base = (uintptr_t)headers - headers[i].p_vaddr;
    for (unsigned long i = 0; i < count; i++)
        if (headers[i].p_type == PT_LOAD && headers[i].p_flags & PF_X) {
            first = base + headers[i].p_vaddr;
            end = first + headers[i].p_memsz;
        }
    refused = number ? atol(number) : 0;
    const char *name = getenv("REFUSE_COUNT");
    int file = name ? open(name, O_RDWR) : -1;
    void *there = file < 0 ? MAP_FAILED : mmap(NULL, sizeof *requests, PROT_READ | PROT_WRITE, MAP_SHARED, file, 0);
    if (there != MAP_FAILED)
        requests = there;
}

static int is_refused(void *caller)
{
    uintptr_t place = (uintptr_t)caller;
    return first <= place && place < end && atomic_fetch_add(requests, 1) + 1 == refused;
}

void *malloc(size_t size)
{
    return is_refused(__builtin_return_address(0)) ? NULL : __libc_malloc(size);
}

void *realloc(void *block, size_t size)
{
    return is_refused(__builtin_return_address(0)) ? NULL : __libc_realloc(block, size);
}
