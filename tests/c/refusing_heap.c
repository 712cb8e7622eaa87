/* What the library takes memory by: malloc, until a test has memory refused. */
#include "refusing_heap.h"
#include <stdbool.h>
#include <stddef.h>
#include <stdlib.h>

_Atomic long requests_left = -1;
_Atomic long blocks_held;

struct tried {
    bool is_ok;
    void *at;
};

static char no_block;

static bool is_refused(void) {
    if (requests_left < 0) return false;
    if (requests_left == 0) return true;
    requests_left--;
    return false;
}

struct tried rattle_alloc(size_t size, size_t align) {
    void *block = is_refused() ? NULL : malloc(size > 0 ? size : align);
    if (!block) return (struct tried){false, &no_block};
    blocks_held++;
    return (struct tried){true, block};
}

struct tried rattle_realloc(void *old, size_t kept, size_t size, size_t align) {
    (void)kept;
    void *block = is_refused() ? NULL : realloc(old, size > 0 ? size : align);
    return block ? (struct tried){true, block} : (struct tried){false, &no_block};
}

void rattle_dealloc(void *block) {
    blocks_held--;
    free(block);
}
