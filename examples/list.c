/* Writes a heap image with roots to standard output: three cells of a list, of which the second is dead, and an array
 * that refers to the first and the last. For machines whose numbers are little endian.
 *
 *     cc -o list examples/list.c && ./list >list.pcheap
 */
#include <stdint.h>
#include <stdio.h>

enum { REGION_LOG = 3, WORDS = 16, ROOTS = 2 };

struct head {
    char magic[8];
    uint32_t region_log, roots;
    uint64_t words, allowance;
};

static uint64_t header(uint64_t references, uint64_t size) { return (UINT64_C(1) << 56) + (references << 32) + size; }

static uint64_t reference(uint64_t address) { return address + 1; }

int main(void) {
    const struct head head = {"PCHEAP02", REGION_LOG, ROOTS, WORDS, 0};
    uint64_t first = 0, last = 7, array = 10;
    uint64_t words[WORDS] = {
        header(2, 4), reference(last), reference(array), 11, /* first: data 11 */
        header(1, 3), reference(last), 22,                   /* second: nothing that lives refers to it */
        header(1, 3), 0, 33,                                 /* last: a null reference */
        header(2, 3), reference(first), reference(last),     /* array */
    };
    uint64_t roots[ROOTS] = {reference(array), 0};
    fwrite(&head, sizeof head, 1, stdout);
    fwrite(words, sizeof *words, WORDS, stdout);
    fwrite(roots, sizeof *roots, ROOTS, stdout);
    return fflush(stdout) != 0 || ferror(stdout);
}
