/* The three functions by which the library takes memory. heap.c defines them over malloc. */
#ifndef PCOMPACT_HEAP_H
#define PCOMPACT_HEAP_H

#include <stdbool.h>
#include <stddef.h>

/* A block, or none: `at` is never null. */
struct tried {
    bool is_ok;
    void *at;
};

/* A block of `size` bytes, which may be 0, aligned to `align`, which is at most 16. */
struct tried rattle_alloc(size_t size, size_t align);

/* The same block with another size, of which the first `kept` bytes are kept. Where there is none, the old one stays. */
struct tried rattle_realloc(void *block, size_t kept, size_t size, size_t align);

void rattle_dealloc(void *block);

#endif
