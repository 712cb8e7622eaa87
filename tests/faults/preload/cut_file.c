// Preloaded into a program, cuts a file before one of the calls on files that read, tell of a file or seek: before the one whose
// number, from 1, the environment gives as CUT. FILE_TO_CUT is the file, and CUT_TO the bytes that it keeps. nth_call.h says how
// many such calls were made.
#define _GNU_SOURCE
#include <dlfcn.h>
#include <stdlib.h>
#include <sys/stat.h>
#include <unistd.h>

#include "nth_call.h"

static void cut(void) {
    if (is_chosen("CUT") && truncate(getenv("FILE_TO_CUT"), atol(getenv("CUT_TO"))) != 0) {
        abort();
    }
}

ssize_t read(int file, void *bytes, size_t size) {
    static ssize_t (*next)(int, void *, size_t);
    if (!next) {
        next = (ssize_t(*)(int, void *, size_t))dlsym(RTLD_NEXT, "read");
    }
    cut();
    return next(file, bytes, size);
}

ssize_t pread(int file, void *bytes, size_t size, off_t at) {
    static ssize_t (*next)(int, void *, size_t, off_t);
    if (!next) {
        next = (ssize_t(*)(int, void *, size_t, off_t))dlsym(RTLD_NEXT, "pread");
    }
    cut();
    return next(file, bytes, size, at);
}

int statx(int folder, const char *name, int flags, unsigned mask, struct statx *told) {
    static int (*next)(int, const char *, int, unsigned, struct statx *);
    if (!next) {
        next = (int (*)(int, const char *, int, unsigned, struct statx *))dlsym(RTLD_NEXT, "statx");
    }
    cut();
    return next(folder, name, flags, mask, told);
}

off_t lseek(int file, off_t offset, int from) {
    static off_t (*next)(int, off_t, int);
    if (!next) {
        next = (off_t(*)(int, off_t, int))dlsym(RTLD_NEXT, "lseek");
    }
    cut();
    return next(file, offset, from);
}
