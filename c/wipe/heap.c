/* The heap of the library for C, in place of the toolchain's c/heap.c. It keeps the same contracts, and wipes each block before
   it is freed. malloc_usable_size says how long a block is: rattle_dealloc is not told. */
#include <malloc.h>
#include <stddef.h>
#include <stdint.h>
#include <stdlib.h>
#include <string.h>

struct tried {
    uint8_t ok;
    uint8_t *p;
};

static uint8_t nothing;

/* The compiler may not drop the zeros: the assembly takes p, and may read all memory. */
static void wipe(uint8_t *p, size_t n) {
    memset(p, 0, n);
    __asm__ volatile("" : : "r"(p) : "memory");
}

struct tried rattle_alloc(size_t n, size_t a) {
    uint8_t *p = malloc(n ? n : a);
    return (struct tried){p != NULL, p ? p : &nothing};
}

void rattle_dealloc(uint8_t *p) {
    if (p == NULL) return;
    wipe(p, malloc_usable_size(p));
    free(p);
}

/* realloc would leave a copy behind where the block moves. */
struct tried rattle_realloc(uint8_t *p, size_t kept, size_t n, size_t a) {
    if (n == 0) n = a;
    size_t room = malloc_usable_size(p);
    /* It fits, and no more than half would be wasted. */
    if (n <= room && room / 2 <= n) return (struct tried){1, p};
    uint8_t *q = malloc(n);
    if (q == NULL) return (struct tried){0, &nothing};
    memcpy(q, p, kept);
    wipe(p, room);
    free(p);
    return (struct tried){1, q};
}

/* Where a program binds lazily, the loader works on the stack of the first call of each function of the C library, and lays the
   vector registers there. So each is called once before there is a secret. */
__attribute__((constructor(101))) static void bind(void) {
    uint8_t bytes[8] = {0};
    uint8_t *p = malloc(sizeof bytes);
    if (p == NULL) return;
    memcpy(p, bytes, sizeof bytes);
    memmove(p, bytes, sizeof bytes);
    wipe(p, malloc_usable_size(p));
    free(p);
}
