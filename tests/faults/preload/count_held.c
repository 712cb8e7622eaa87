// Preloaded into a program, counts the bytes that its blocks hold. At exit file descriptor 3 gets the most that they held at a
// time.
#define _GNU_SOURCE
#include <dlfcn.h>
#include <malloc.h>
#include <stdio.h>

#include "at_exit.h"

static long held;
static long most;

static void *next(const char *name) {
    return dlsym(RTLD_NEXT, name);
}

static void *take(void *block) {
    if (block) {
        long now = __atomic_add_fetch(&held, (long)malloc_usable_size(block), __ATOMIC_RELAXED);
        if (now > most) {
            most = now;
        }
    }
    return block;
}

static void give(void *block) {
    if (block) {
        __atomic_fetch_sub(&held, (long)malloc_usable_size(block), __ATOMIC_RELAXED);
    }
}

void *malloc(size_t size) {
    static void *(*real)(size_t);
    if (!real) {
        real = (void *(*)(size_t))next("malloc");
    }
    return take(real(size));
}

void *realloc(void *block, size_t size) {
    static void *(*real)(void *, size_t);
    if (!real) {
        real = (void *(*)(void *, size_t))next("realloc");
    }
    give(block);
    return take(real(block, size));
}

void free(void *block) {
    static void (*real)(void *);
    if (!real) {
        real = (void (*)(void *))next("free");
    }
    give(block);
    real(block);
}

static void tell(void) {
    dprintf(3, "%ld\n", most);
}
