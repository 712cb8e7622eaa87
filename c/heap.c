/* What the library takes memory by, over malloc. libpcompact.a has it as an object of its own, which a linker takes only where
 * the program defines none of the three functions: a program with another allocator defines all of them, as here. */
#include "heap.h"

/* Declared here, as the Rattle kit's compiler, which builds the same bytes everywhere, has no headers of the C library. */
void *malloc(size_t size);
void *realloc(void *block, size_t size);
void free(void *block);

static char no_block;

static struct tried try_block(void *block) {
    return (struct tried){block != 0, block != 0 ? block : &no_block};
}

/* An empty block takes a byte for each byte of its alignment. */
struct tried rattle_alloc(size_t size, size_t align) {
    return try_block(malloc(size > 0 ? size : align));
}

struct tried rattle_realloc(void *block, size_t kept, size_t size, size_t align) {
    (void)kept;
    return try_block(realloc(block, size > 0 ? size : align));
}

void rattle_dealloc(void *block) {
    free(block);
}
