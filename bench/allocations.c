/* The program's own malloc, calloc and realloc, which the shared libraries of the peers call, too: they count, and hand on
   to those of the C library. The process has one thread. */
#include <stddef.h>

#include "allocations.h"

static uint64_t asked;

void *__libc_malloc(size_t size);
void *__libc_calloc(size_t count, size_t size);
void *__libc_realloc(void *block, size_t size);

void *malloc(size_t size)
{
    asked++;
    return __libc_malloc(size);
}

void *calloc(size_t count, size_t size)
{
    asked++;
    return __libc_calloc(count, size);
}

void *realloc(void *block, size_t size)
{
    asked++;
    return __libc_realloc(block, size);
}

uint64_t allocations(void)
{
    return asked;
}
