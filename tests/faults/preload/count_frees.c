// Preloaded into a program, follows the blocks that it takes by malloc and realloc and gives back by free.
// At exit the first line on file descriptor 3 gives how many were asked for and how many freed; then each
// block that is left has a line: which one it was, from 1, its bytes, and where in the program it was asked
// for. Blocks that the C library takes for itself, as for a thread, don't count. The environment can give as
// KEPT the number, from 1, of a free that is left out, so that a block stays.
#define _GNU_SOURCE
#include <dlfcn.h>
#include <link.h>
#include <pthread.h>
#include <stdio.h>
#include <stdlib.h>

#include "at_exit.h"

enum { ROOM = 1 << 18 };

static struct {
    void *block;
    size_t size;
    char *caller;
    unsigned long number;
} left[ROOM];

static unsigned long asked, freed, used;
static int has_kept;
static char *start, *end_of_code;
static pthread_mutex_t lock = PTHREAD_MUTEX_INITIALIZER;

// Notes where the program's own segments lie: those of the first object.
static int find_program(struct dl_phdr_info *object, size_t size, void *unused) {
    (void)size, (void)unused;
    start = (char *)object->dlpi_addr;
    for (int i = 0; i < object->dlpi_phnum; i++) {
        if (object->dlpi_phdr[i].p_type == PT_LOAD) {
            end_of_code = start + object->dlpi_phdr[i].p_vaddr + object->dlpi_phdr[i].p_memsz;
        }
    }
    return 1;
}

static int is_of_program(char *caller) {
    if (!start) {
        dl_iterate_phdr(find_program, NULL);
    }
    return start <= caller && caller < end_of_code;
}

// Puts what was asked for where there is room: the number of the block stays where it is moved.
static void keep(void *block, size_t size, char *caller, unsigned long number) {
    for (unsigned long i = 0; i < ROOM; i++) {
        if (!left[i].block) {
            left[i].block = block, left[i].size = size, left[i].caller = caller, left[i].number = number;
            used = i < used ? used : i + 1;
            return;
        }
    }
    dprintf(3, "too many blocks\n");
}

// The place of a block, or ROOM where it isn't known.
static unsigned long place_of(void *block) {
    for (unsigned long i = 0; block && i < used; i++) {
        if (left[i].block == block) {
            return i;
        }
    }
    return ROOM;
}

void *malloc(size_t size) {
    static void *(*next)(size_t);
    if (!next) {
        next = (void *(*)(size_t))dlsym(RTLD_NEXT, "malloc");
    }
    char *caller = __builtin_return_address(0);
    void *block = next(size);
    if (is_of_program(caller)) {
        pthread_mutex_lock(&lock);
        asked++;
        if (block) {
            keep(block, size, caller, asked);
        }
        pthread_mutex_unlock(&lock);
    }
    return block;
}

void *realloc(void *block, size_t size) {
    static void *(*next)(void *, size_t);
    if (!next) {
        next = (void *(*)(void *, size_t))dlsym(RTLD_NEXT, "realloc");
    }
    char *caller = __builtin_return_address(0);
    // Held meanwhile, since another thread may get the old block's place as soon as it is free.
    pthread_mutex_lock(&lock);
    void *moved = next(block, size);
    unsigned long place = place_of(block);
    if (moved && place < ROOM) {
        left[place].block = moved, left[place].size = size;
    } else if (is_of_program(caller)) {
        asked++;
        if (moved) {
            keep(moved, size, caller, asked);
        }
    }
    pthread_mutex_unlock(&lock);
    return moved;
}

void free(void *block) {
    static void (*next)(void *);
    if (!next) {
        next = (void (*)(void *))dlsym(RTLD_NEXT, "free");
    }
    const char *text = getenv("KEPT");
    unsigned long kept = text ? strtoul(text, NULL, 10) : 0;
    pthread_mutex_lock(&lock);
    unsigned long place = place_of(block);
    int is_kept = place < ROOM && !has_kept && freed + 1 == kept;
    if (is_kept) {
        has_kept = 1;
    } else if (place < ROOM) {
        freed++;
        left[place].block = NULL;
    }
    pthread_mutex_unlock(&lock);
    if (!is_kept) {
        next(block);
    }
}

static void tell(void) {
    dprintf(3, "%lu %lu\n", asked, freed);
    for (unsigned long i = 0; i < used; i++) {
        if (left[i].block) {
            dprintf(3, "block %lu, of %zu bytes, asked for before address %#tx\n", left[i].number, left[i].size,
                    left[i].caller - start);
        }
    }
}
