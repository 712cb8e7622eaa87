// Preloaded into a program, notes in order when it starts a thread, and what shows in which phase it does: a letter each for
// a thread (t), a read (r), one that finds the end (e), a positioned read (p) and a write (w). At exit file descriptor 3 gets
// the letters. Where THREADS is set, no more than that number are started.
#define _GNU_SOURCE
#include <dlfcn.h>
#include <errno.h>
#include <pthread.h>
#include <stdlib.h>

#include "at_exit.h"

#define MOST (1 << 22)

static char noted[MOST];
static unsigned long count;

static void note(char letter) {
    unsigned long place = __atomic_fetch_add(&count, 1, __ATOMIC_RELAXED);
    if (place < MOST) {
        noted[place] = letter;
    }
}

int pthread_create(pthread_t *thread, const pthread_attr_t *attributes, void *(*start)(void *), void *argument) {
    static int (*next)(pthread_t *, const pthread_attr_t *, void *(*)(void *), void *);
    if (!next) {
        next = (int (*)(pthread_t *, const pthread_attr_t *, void *(*)(void *), void *))dlsym(RTLD_NEXT, "pthread_create");
    }
    note('t');
    static long started;
    const char *most = getenv("THREADS");
    if (most && __atomic_fetch_add(&started, 1, __ATOMIC_RELAXED) >= atol(most)) {
        return EAGAIN;
    }
    return next(thread, attributes, start, argument);
}

ssize_t read(int file, void *bytes, size_t size) {
    static ssize_t (*next)(int, void *, size_t);
    if (!next) {
        next = (ssize_t(*)(int, void *, size_t))dlsym(RTLD_NEXT, "read");
    }
    ssize_t moved = next(file, bytes, size);
    note(moved == 0 ? 'e' : 'r');
    return moved;
}

ssize_t pread(int file, void *bytes, size_t size, off_t at) {
    static ssize_t (*next)(int, void *, size_t, off_t);
    if (!next) {
        next = (ssize_t(*)(int, void *, size_t, off_t))dlsym(RTLD_NEXT, "pread");
    }
    note('p');
    return next(file, bytes, size, at);
}

ssize_t write(int file, const void *bytes, size_t size) {
    static ssize_t (*next)(int, const void *, size_t);
    if (!next) {
        next = (ssize_t(*)(int, const void *, size_t))dlsym(RTLD_NEXT, "write");
    }
    note('w');
    return next(file, bytes, size);
}

static void tell(void) {
    unsigned long length = count < MOST ? count : MOST;
    for (unsigned long told = 0; told < length;) {
        long moved = syscall(SYS_write, 3, noted + told, length - told);
        if (moved <= 0) {
            return;
        }
        told += moved;
    }
}
