#include "checks.h"
#include <stdio.h>
#include <stdlib.h>

static int passed, failed;

void check(int holds, const char *what) {
    if (holds) {
        passed++;
    } else {
        failed++;
        printf("failed: %s\n", what);
    }
}

int end_checks(void) {
    printf("%d passed, %d failed\n", passed, failed);
    return failed != 0;
}

void *room_for(size_t bytes) {
    void *room = malloc(bytes > 0 ? bytes : 1);
    if (!room) exit(2);
    return room;
}

image read_image(const char *name) {
    FILE *file = fopen(name, "rb");
    if (!file) exit(2);
    fseek(file, 0, SEEK_END);
    image it = {.len = (size_t)ftell(file)};
    rewind(file);
    it.bytes = room_for(it.len + 1);
    if (fread(it.bytes, 1, it.len, file) != it.len) exit(2);
    fclose(file);
    return it;
}

int has_roots(const image *it) {
    return it->bytes[7] != '1';
}
