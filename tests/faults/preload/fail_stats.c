// Preloaded into a program, lets the system tell it less of its work: the clock fails from the call on whose number, from 1, the
// environment gives as NO_CLOCK, and the file of the process's peak memory can't be opened where NO_STATUS is set. From the call
// on that it gives as LATE the clock is 1000 seconds ahead. At exit file descriptor 3 gets what the system tells of the process.
#define _GNU_SOURCE
#include <dlfcn.h>
#include <errno.h>
#include <fcntl.h>
#include <stdarg.h>
#include <stdatomic.h>
#include <stdlib.h>
#include <string.h>
#include <time.h>

#include "at_exit.h"

static atomic_ulong readings;

int clock_gettime(clockid_t clock, struct timespec *time) {
    static int (*next)(clockid_t, struct timespec *);
    if (!next) {
        next = (int (*)(clockid_t, struct timespec *))dlsym(RTLD_NEXT, "clock_gettime");
    }
    unsigned long number = atomic_fetch_add(&readings, 1) + 1;
    const char *first = getenv("NO_CLOCK");
    const char *late = getenv("LATE");
    if (first && number >= strtoul(first, NULL, 10)) {
        errno = EINVAL;
        return -1;
    }
    int status = next(clock, time);
    if (late && number >= strtoul(late, NULL, 10)) {
        time->tv_sec += 1000;
    }
    return status;
}

int open(const char *name, int flags, ...) {
    static int (*next)(const char *, int, ...);
    if (!next) {
        next = (int (*)(const char *, int, ...))dlsym(RTLD_NEXT, "open");
    }
    va_list rest;
    va_start(rest, flags);
    mode_t mode = flags & O_CREAT ? va_arg(rest, mode_t) : 0;
    va_end(rest);
    if (getenv("NO_STATUS") && strcmp(name, "/proc/self/status") == 0) {
        errno = EACCES;
        return -1;
    }
    return next(name, flags, mode);
}

static void tell(void) {
    char text[8192];
    int status = syscall(SYS_openat, AT_FDCWD, "/proc/self/status", O_RDONLY, 0);
    ssize_t length = syscall(SYS_read, status, text, sizeof text);
    if (length > 0) {
        (void)!syscall(SYS_write, 3, text, length);
    }
}
