// Counts the calls that a preloaded library stands before. At exit a line on file descriptor 3 gives how
// many there were.
#include <stdio.h>
#include <stdlib.h>

#include "at_exit.h"

static unsigned long calls;

// Whether this call is the one whose number, from 1, the environment gives under a name.
static int is_chosen(const char *name) {
    const char *text = getenv(name);
    unsigned long chosen = text ? strtoul(text, NULL, 10) : 0;
    return __atomic_add_fetch(&calls, 1, __ATOMIC_RELAXED) == chosen;
}

static void tell(void) {
    dprintf(3, "%lu\n", calls);
}
