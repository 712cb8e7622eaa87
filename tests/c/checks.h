/* What callers of the library share: a count of checks, and the bytes of images. */
#ifndef CHECKS_H
#define CHECKS_H

#include <stddef.h>
#include <stdint.h>

/* Counts a check, and says what it was if it doesn't hold. */
void check(int holds, const char *what);

/* Prints how many checks held and how many didn't. Returns the exit status: 1 if one didn't. */
int end_checks(void);

/* A block of `bytes` bytes, for the caller to free. It ends the process with status 2 if memory runs out. */
void *room_for(size_t bytes);

/* Where the words of an image begin. Its live addresses or roots follow them. */
enum { FRONT_BYTES = 32 };

/* The bytes of an image, with room for one more, for the caller to free. */
typedef struct image {
    uint8_t *bytes;
    size_t len;
} image;

/* Reads a file. It ends the process with status 2 if it can't. */
image read_image(const char *name);

/* Whether the version of an image has roots. */
int has_roots(const image *it);

#endif
