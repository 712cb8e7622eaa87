// Preloaded into a program, tells on file descriptor 3 what it does with the files that it makes under a name that must be
// free, a line each: `make MODE`, `write MODE` where the mode is another than at the line before, `owner`, `group`, `mode MODE`,
// `sync`, `rename`, and `print` where it writes to standard output. The modes are those that the file has by then.
//
// The environment has it do more. With SWAPPED a link to that file takes the name of the first such file as soon as that is
// made: what a stranger may do who can write in the folder. With FAILS the calls that this names fail: `sync`, `rename`,
// `owner`, `mode`, `empty`, `stat`, `lock`, `write`, with the number ERROR or else EIO; with `none` a write to a file takes no
// byte. With MEANWHILE that command runs before the first write to a file. With HELD that number of MiB is asked for, touched
// and given back before the program begins. With AGAIN that file is opened in place of the file `dump` where that is opened for a
// second time. With RENEWED an empty file takes the place of that one as soon as a file that was there before is to be locked:
// what two other calls do, one that removes it and one that makes it.
#define _GNU_SOURCE
#include <dlfcn.h>
#include <errno.h>
#include <fcntl.h>
#include <stdarg.h>
#include <stdio.h>
#include <stdlib.h>
#include <string.h>
#include <sys/file.h>
#include <sys/mman.h>
#include <sys/stat.h>
#include <unistd.h>

#define FILES 1024

static char is_new[FILES];
static char is_systems[FILES];
static mode_t told_mode = -1;
static int was_swapped;
static int was_run;
static int dump_openings;

// The C library's function of this name.
#define NEXT(name) \
    static __typeof__(name) *next; \
    if (!next) { \
        next = (__typeof__(name) *)dlsym(RTLD_NEXT, #name); \
    }

__attribute__((constructor)) static void hold(void) {
    const char *held = getenv("HELD");
    size_t size = held ? strtoul(held, NULL, 10) << 20 : 0;
    if (size) {
        char *memory = mmap(NULL, size, PROT_READ | PROT_WRITE, MAP_PRIVATE | MAP_ANONYMOUS, -1, 0);
        memset(memory, 1, size);
        munmap(memory, size);
    }
}

static int is_made(int file) {
    return file >= 0 && file < FILES && is_new[file];
}

static int fails(const char *call) {
    const char *chosen = getenv("FAILS");
    const char *error = getenv("ERROR");
    errno = error ? atoi(error) : EIO;
    return chosen && strcmp(chosen, call) == 0;
}

static mode_t mode_of(int file) {
    struct stat told;
    return fstat(file, &told) ? 0 : told.st_mode & 07777;
}

static void swap(const char *name) {
    const char *target = getenv("SWAPPED");
    if (target && !was_swapped) {
        was_swapped = 1;
        if (renameat(AT_FDCWD, name, AT_FDCWD, "moved") || symlink(target, name)) {
            dprintf(3, "not swapped\n");
        }
    }
}

// The file to open under this name.
static const char *opened(const char *name) {
    const char *again = getenv("AGAIN");
    return again && strcmp(name, "dump") == 0 && ++dump_openings == 2 ? again : name;
}

int open(const char *name, int flags, ...) {
    NEXT(open)
    va_list rest;
    va_start(rest, flags);
    mode_t mode = flags & O_CREAT ? va_arg(rest, mode_t) : 0;
    va_end(rest);
    int file = next(opened(name), flags, mode);
    if (file >= 0 && file < FILES) {
        is_systems[file] = strncmp(name, "/sys/", 5) == 0 || strncmp(name, "/proc/", 6) == 0;
        is_new[file] = (flags & O_EXCL) != 0;
        if (is_new[file]) {
            told_mode = mode_of(file);
            dprintf(3, "make %o\n", told_mode);
            swap(name);
        }
    }
    return file;
}

ssize_t write(int file, const void *bytes, size_t size) {
    NEXT(write)
    if (file == 1) {
        dprintf(3, "print\n");
    }
    if (file > 3) {
        const char *meanwhile = getenv("MEANWHILE");
        if (meanwhile && !was_run) {
            was_run = 1;
            (void)!system(meanwhile);
        }
        if (fails("none")) {
            return 0;
        }
        if (fails("write")) {
            return -1;
        }
    }
    if (is_made(file) && mode_of(file) != told_mode) {
        told_mode = mode_of(file);
        dprintf(3, "write %o\n", told_mode);
    }
    return next(file, bytes, size);
}

int fchown(int file, uid_t owner, gid_t group) {
    NEXT(fchown)
    if (is_made(file)) {
        dprintf(3, owner != (uid_t)-1 ? "owner\n" : "group\n");
    }
    return fails("owner") ? -1 : next(file, owner, group);
}

int fchmod(int file, mode_t mode) {
    NEXT(fchmod)
    if (is_made(file)) {
        dprintf(3, "mode %o\n", mode);
    }
    return fails("mode") ? -1 : next(file, mode);
}

int fsync(int file) {
    NEXT(fsync)
    if (is_made(file)) {
        dprintf(3, "sync\n");
    }
    return fails("sync") ? -1 : next(file);
}

int ftruncate(int file, off_t length) {
    NEXT(ftruncate)
    return fails("empty") ? -1 : next(file, length);
}

int statx(int folder, const char *name, int flags, unsigned mask, struct statx *told) {
    NEXT(statx)
    int is_systems_own = folder >= 0 && folder < FILES && is_systems[folder];
    return !is_systems_own && fails("stat") ? -1 : next(folder, name, flags, mask, told);
}

static void renew(const char *name) {
    int other = unlink(name) ? -1 : openat(AT_FDCWD, name, O_WRONLY | O_CREAT | O_EXCL, 0644);
    if (other < 0 || close(other)) {
        dprintf(3, "not renewed\n");
    }
}

int flock(int file, int how) {
    NEXT(flock)
    const char *renewed = getenv("RENEWED");
    if (renewed && !is_made(file)) {
        renew(renewed);
    }
    return fails("lock") ? -1 : next(file, how);
}

int rename(const char *from, const char *to) {
    NEXT(rename)
    dprintf(3, "rename\n");
    return fails("rename") ? -1 : next(from, to);
}
