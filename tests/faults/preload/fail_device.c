// Preloaded into a program, lets one of its calls on files fail, as opens, reads and writes: the one
// whose number, from 1, the environment gives as FAILED. Positioned reads count, and alone, where
// POSITIONED is set. With ONE set, each read and write moves one
// byte at most. nth_call.h says how many such calls were made. Files in which the system tells of itself,
// as how many processors there are, are left alone and not counted: no command names them. Nor is it
// counted that a file is removed: the program does so only after another fault.
#define _GNU_SOURCE
#include <dlfcn.h>
#include <errno.h>
#include <fcntl.h>
#include <stdarg.h>
#include <stdio.h>
#include <stdlib.h>
#include <string.h>
#include <sys/stat.h>
#include <unistd.h>

#include "nth_call.h"

#define FILES 1024

static char is_systems[FILES];

static int begins(const char *name, const char *folder) {
    return strncmp(name, folder, strlen(folder)) == 0;
}

static int is_left_alone(int file) {
    return file >= 0 && file < FILES && is_systems[file];
}

static int fails_of(int is_positioned) {
    if (is_positioned != (getenv("POSITIONED") != NULL) || !is_chosen("FAILED")) {
        return 0;
    }
    errno = EIO;
    return 1;
}

static int fails(void) {
    return fails_of(0);
}

static size_t moved(size_t size) {
    return size > 1 && getenv("ONE") ? 1 : size;
}

int open(const char *name, int flags, ...) {
    static int (*next)(const char *, int, ...);
    if (!next) {
        next = (int (*)(const char *, int, ...))dlsym(RTLD_NEXT, "open");
    }
    va_list rest;
    va_start(rest, flags);
    mode_t mode = flags & O_CREAT ? va_arg(rest, mode_t) : 0;
    va_end(rest);
    int is_own = begins(name, "/sys/") || begins(name, "/proc/");
    int file = !is_own && fails() ? -1 : next(name, flags, mode);
    if (file >= 0 && file < FILES) {
        is_systems[file] = is_own;
    }
    return file;
}

ssize_t read(int file, void *bytes, size_t size) {
    static ssize_t (*next)(int, void *, size_t);
    if (!next) {
        next = (ssize_t(*)(int, void *, size_t))dlsym(RTLD_NEXT, "read");
    }
    if (is_left_alone(file)) {
        return next(file, bytes, size);
    }
    return fails() ? -1 : next(file, bytes, moved(size));
}

ssize_t pread(int file, void *bytes, size_t size, off_t at) {
    static ssize_t (*next)(int, void *, size_t, off_t);
    if (!next) {
        next = (ssize_t(*)(int, void *, size_t, off_t))dlsym(RTLD_NEXT, "pread");
    }
    return fails_of(1) ? -1 : next(file, bytes, size, at);
}

ssize_t write(int file, const void *bytes, size_t size) {
    static ssize_t (*next)(int, const void *, size_t);
    if (!next) {
        next = (ssize_t(*)(int, const void *, size_t))dlsym(RTLD_NEXT, "write");
    }
    return fails() ? -1 : next(file, bytes, moved(size));
}

int statx(int folder, const char *name, int flags, unsigned mask, struct statx *told) {
    static int (*next)(int, const char *, int, unsigned, struct statx *);
    if (!next) {
        next = (int (*)(int, const char *, int, unsigned, struct statx *))dlsym(RTLD_NEXT, "statx");
    }
    if (is_left_alone(folder)) {
        return next(folder, name, flags, mask, told);
    }
    return fails() ? -1 : next(folder, name, flags, mask, told);
}

off_t lseek(int file, off_t offset, int from) {
    static off_t (*next)(int, off_t, int);
    if (!next) {
        next = (off_t(*)(int, off_t, int))dlsym(RTLD_NEXT, "lseek");
    }
    return fails() ? -1 : next(file, offset, from);
}

int ftruncate(int file, off_t length) {
    static int (*next)(int, off_t);
    if (!next) {
        next = (int (*)(int, off_t))dlsym(RTLD_NEXT, "ftruncate");
    }
    return fails() ? -1 : next(file, length);
}

int fsync(int file) {
    static int (*next)(int);
    if (!next) {
        next = (int (*)(int))dlsym(RTLD_NEXT, "fsync");
    }
    return fails() ? -1 : next(file);
}

int fchmod(int file, mode_t mode) {
    static int (*next)(int, mode_t);
    if (!next) {
        next = (int (*)(int, mode_t))dlsym(RTLD_NEXT, "fchmod");
    }
    return fails() ? -1 : next(file, mode);
}

int fchown(int file, uid_t owner, gid_t group) {
    static int (*next)(int, uid_t, gid_t);
    if (!next) {
        next = (int (*)(int, uid_t, gid_t))dlsym(RTLD_NEXT, "fchown");
    }
    return fails() ? -1 : next(file, owner, group);
}

int rename(const char *from, const char *to) {
    static int (*next)(const char *, const char *);
    if (!next) {
        next = (int (*)(const char *, const char *))dlsym(RTLD_NEXT, "rename");
    }
    return fails() ? -1 : next(from, to);
}
