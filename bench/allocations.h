/* How often memory was asked for. */
#ifndef ALLOCATIONS_H
#define ALLOCATIONS_H

#include <stdint.h>

/* The calls of malloc, calloc and realloc in this process so far, from the library and the peers alike. */
uint64_t allocations(void);

#endif
