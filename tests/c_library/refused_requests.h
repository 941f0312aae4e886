/* Requests for memory of the library, counted and refused: a driver that is linked with
   -Wl,--wrap=malloc,--wrap=realloc,--wrap=free asks it with this. */
#ifndef REFUSED_REQUESTS_H
#define REFUSED_REQUESTS_H

#include <stdbool.h>
#include <stddef.h>

void *__real_malloc(size_t size);
void *__real_realloc(void *place, size_t size);
void __real_free(void *place);
void *__wrap_malloc(size_t size);
void *__wrap_realloc(void *place, size_t size);
void __wrap_free(void *place);

/* How many pieces are out, how many requests were made, and which of them are refused; 0 for none. */
static long out;
static unsigned long requests, refuse_at, refuse_from;

static bool refuses(void) {
    requests++;
    return requests == refuse_at || (refuse_from > 0 && requests >= refuse_from);
}

void *__wrap_malloc(size_t size) {
    void *place = refuses() ? NULL : __real_malloc(size);
    out += place != NULL;
    return place;
}

void *__wrap_realloc(void *place, size_t size) {
    void *moved = refuses() ? NULL : __real_realloc(place, size);
    out += place == NULL && moved != NULL;
    return moved;
}

void __wrap_free(void *place) {
    out -= place != NULL;
    __real_free(place);
}

#endif
