/* Collects a heap of 16 words: a list of two cells, and a cell that nothing leads to.
 *
 *     cc -o first first.c $(pkg-config --cflags --libs pcompact) && ./first
 */
#include <inttypes.h>
#include <pcompact.h>
#include <stdio.h>

enum { REGION_LOG = 3, WORDS = 16, ROOTS = 1 };

/* The header of an object of `size` words, this one included, of which the next `references` are references: below 2^24. */
static uint64_t header(uint64_t size, uint64_t references) { return (UINT64_C(1) << 56) + (references << 32) + size; }

static uint64_t reference(uint64_t address) { return 1 + address; }

int main(void) {
    uint64_t words[WORDS] = {
        header(3, 1), 0, 11,            /* at 0: nothing leads here */
        header(3, 1), 0, 22,            /* at 3: the last cell */
        header(3, 1), reference(3), 33, /* at 6: the first cell */
    };
    uint64_t roots[ROOTS] = {reference(6)};
    pcompact_settings settings = {.region_log = REGION_LOG, .allowance = 0};
    pcompact_answer answer;
    if (pcompact_collect_in_place_rooted(words, WORDS, roots, ROOTS, settings, &answer) != 0) {
        uint8_t text[64];
        pcompact_fault_text(answer.fault, text, sizeof text);
        fprintf(stderr, "fault %s\n", (char *)text);
        return 1;
    }
    printf("the first free address is %" PRIu64 "\n", answer.new_top);
    for (uint64_t cell = roots[0]; cell != 0; cell = words[cell]) {
        printf("a cell at %" PRIu64 " with %" PRIu64 "\n", cell - 1, words[cell + 1]);
    }
    return 0;
}
