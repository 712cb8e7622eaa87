// Preloaded into a program, refuses one of its allocations: the one whose number, from 1, the
// environment gives as REFUSED. nth_call.h says how many were asked for.
#define _GNU_SOURCE
#include <dlfcn.h>

#include "nth_call.h"

static int is_refused(void) {
    return is_chosen("REFUSED");
}

void *malloc(size_t size) {
    static void *(*next)(size_t);
    if (!next) {
        next = (void *(*)(size_t))dlsym(RTLD_NEXT, "malloc");
    }
    return is_refused() ? NULL : next(size);
}

void *realloc(void *block, size_t size) {
    static void *(*next)(void *, size_t);
    if (!next) {
        next = (void *(*)(void *, size_t))dlsym(RTLD_NEXT, "realloc");
    }
    return is_refused() ? NULL : next(block, size);
}
