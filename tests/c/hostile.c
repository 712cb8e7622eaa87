/* Heaps that are none, in memory with other words around it: each call must name the fault and leave all as it was.
 *
 * usage: hostile */
#include "pcompact.h"
#include <stdio.h>
#include <stdlib.h>
#include <string.h>

#define HEADER(size, references) (UINT64_C(1) << 56 | (uint64_t)(references) << 32 | (size))
#define TO(address) (1 + (uint64_t)(address))
#define LARGEST UINT64_MAX

enum { LIVE, ROOTED, WORDS = 16, TAIL = 2, ROOM = 32, GUARD = 4, BLOCK = WORDS + ROOM + 3 * GUARD };

/* The first word of the heap, and of its live list or roots, in a block that has other words around both. */
enum { HEAP = GUARD, LIST = HEAP + WORDS + GUARD };

/* A heap with up to two other words, where `at` is a place in the block and 0 stands for none; and its fault. */
typedef struct row {
    const char *what;
    int kind;
    struct { size_t at; uint64_t wrong; } changes[2];
    size_t word_count, tail_count;
    uint32_t region_log, fault, field;
    uint64_t place;
} row;

static const row rows[] = {
    {"no word", LIVE, {{0, 0}}, 0, 0, 3, 4, 0, 0},
    {"no word, with roots", ROOTED, {{0, 0}}, 0, 0, 3, 4, 0, 0},
    {"a region that isn't whole", LIVE, {{0, 0}}, 15, 2, 3, 4, 0, 0},
    {"a region that isn't whole, with roots", ROOTED, {{0, 0}}, 12, 2, 3, 4, 0, 0},
    {"regions larger than the heap", LIVE, {{0, 0}}, 16, 2, 5, 4, 0, 0},
    {"regions larger than the heap, with roots", ROOTED, {{0, 0}}, 16, 2, 20, 4, 0, 0},
    {"regions of a word", LIVE, {{0, 0}}, 16, 2, 0, 3, 0, 0},
    {"regions of 4 words", ROOTED, {{0, 0}}, 16, 2, 2, 3, 0, 0},
    {"a region log of 17", LIVE, {{0, 0}}, 16, 2, 17, 3, 0, 0},
    {"a region log of 21", ROOTED, {{0, 0}}, 16, 2, 21, 3, 0, 0},
    {"the largest region log", LIVE, {{0, 0}}, 16, 2, UINT32_MAX, 3, 0, 0},
    {"the largest region log, with roots", ROOTED, {{0, 0}}, 16, 2, UINT32_MAX, 3, 0, 0},
    {"more words than a heap has", LIVE, {{0, 0}}, (size_t)1 << 40, 2, 16, 4, 0, 0},
    {"more words than there are, with roots", ROOTED, {{0, 0}}, SIZE_MAX - 7, 2, 3, 4, 0, 0},
    {"more live objects than words", LIVE, {{0, 0}}, 16, 17, 3, 4, 0, 0},
    {"the most live objects", LIVE, {{0, 0}}, 16, SIZE_MAX / 8, 3, 4, 0, 0},
    {"the most roots", ROOTED, {{0, 0}}, 16, SIZE_MAX / 8, 3, 4, 0, 0},
    {"the most roots, and regions of 4 words", ROOTED, {{0, 0}}, 16, SIZE_MAX / 8, 2, 3, 0, 0},
    {"more roots than words", ROOTED, {{0, 0}}, 16, 17, 3, 4, 0, 0},
    {"an address twice", LIVE, {{LIST + 1, 3}}, 16, 2, 3, 6, 0, 1},
    {"addresses that descend", LIVE, {{LIST, 9}}, 16, 2, 3, 6, 0, 1},
    {"the first address behind the heap", LIVE, {{LIST + 1, 16}}, 16, 2, 3, 6, 0, 1},
    {"the largest address", LIVE, {{LIST, LARGEST}}, 16, 2, 3, 6, 0, 0},
    {"a live address without an object", LIVE, {{LIST + 1, 7}}, 16, 2, 3, 7, 0, 7},
    {"no size", LIVE, {{HEAP + 3, HEADER(0, 0)}}, 16, 2, 3, 7, 0, 3},
    {"as many references as words", ROOTED, {{HEAP + 3, HEADER(3, 3)}}, 16, 2, 3, 7, 0, 3},
    {"an object that ends behind the heap", LIVE, {{HEAP + 6, HEADER(11, 1)}}, 16, 2, 3, 7, 0, 6},
    {"the largest object", ROOTED, {{HEAP + 6, HEADER(UINT32_MAX, 0)}}, 16, 2, 3, 7, 0, 6},
    {"a filler that lives", LIVE, {{HEAP + 3, HEADER(3, 1) << 1}}, 16, 2, 3, 7, 0, 3},
    {"a header of ones", ROOTED, {{HEAP + 3, LARGEST}}, 16, 2, 3, 7, 0, 3},
    {"objects that overlap", LIVE, {{HEAP + 3, HEADER(4, 1)}}, 16, 2, 3, 8, 0, 6},
    {"an object in another's data", ROOTED, {{HEAP + 5, HEADER(1, 0)}, {LIST + 1, TO(5)}}, 16, 2, 3, 8, 0, 5},
    {"a reference to what isn't listed", LIVE, {{HEAP + 7, TO(0)}}, 16, 2, 3, 9, 0, 6},
    {"a reference into an object", LIVE, {{HEAP + 7, TO(4)}}, 16, 2, 3, 9, 0, 6},
    {"a second reference behind the heap", LIVE, {{HEAP + 6, HEADER(3, 2)}, {HEAP + 8, TO(16)}}, 16, 2, 3, 9, 1, 6},
    {"a reference behind the heap, with roots", ROOTED, {{HEAP + 7, TO(16)}}, 16, 2, 3, 9, 0, 6},
    {"the largest reference", ROOTED, {{HEAP + 7, LARGEST}}, 16, 2, 3, 9, 0, 6},
    {"a root behind the heap", ROOTED, {{LIST, TO(16)}}, 16, 2, 3, 17, 0, 0},
    {"the largest root", ROOTED, {{LIST + 1, LARGEST}}, 16, 2, 3, 17, 0, 1},
    {"a root that leads to no object", ROOTED, {{LIST + 1, TO(9)}}, 16, 2, 3, 7, 0, 9},
};

static int passed, failed;

static void check(int holds, const char *call, const char *what) {
    passed += holds;
    failed += !holds;
    if (!holds) printf("failed: %s: %s\n", call, what);
}

/* A dead cell at 0, one at 3 and one at 6 that refers to it, in regions of 8 words. */
static void fill(uint64_t *block, int kind) {
    const uint64_t words[] = {HEADER(3, 1), 0, 11, HEADER(3, 1), 0, 22, HEADER(3, 1), TO(3), 33};
    for (size_t i = 0; i < BLOCK; i++) block[i] = 900 + i;
    memcpy(block + HEAP, words, sizeof words);
    block[LIST] = kind == ROOTED ? TO(6) : 3;
    block[LIST + 1] = kind == ROOTED ? TO(3) : 6;
}

typedef uint32_t call(uint64_t *, size_t, uint64_t *, size_t, pcompact_settings, pcompact_answer *);

static uint32_t summarize(uint64_t *words, size_t word_count, uint64_t *live, size_t live_count, pcompact_settings settings,
                          pcompact_answer *answer) {
    return pcompact_summary(words, word_count, live, live_count, settings, answer);
}

static void refuse(const row *it, const char *name, call *collect) {
    uint64_t block[BLOCK], same[BLOCK];
    fill(block, it->kind);
    for (int i = 0; i < 2; i++) {
        if (it->changes[i].at != 0) block[it->changes[i].at] = it->changes[i].wrong;
    }
    memcpy(same, block, sizeof block);
    pcompact_answer answer;
    memset(&answer, 0x5a, sizeof answer);
    pcompact_settings settings = {it->region_log, 0};
    uint32_t fault = collect(block + HEAP, it->word_count, block + LIST, it->tail_count, settings, &answer);
    check(fault == it->fault && answer.fault.number == fault, name, it->what);
    check(answer.fault.field == it->field && answer.fault.place == it->place, name, it->what);
    check(answer.prefix_end == 0 && answer.new_top == 0 && answer.filled_regions == 0, name, it->what);
    check(memcmp(block, same, sizeof block) == 0, name, it->what);
}

/* A collection with an empty list writes zeros over the words, and nothing else. */
static void collect_nothing(const char *name, int kind, call *collect) {
    uint64_t block[BLOCK], wanted[BLOCK];
    fill(block, kind);
    memcpy(wanted, block, sizeof block);
    memset(wanted + HEAP, 0, sizeof *wanted * WORDS);
    pcompact_answer answer;
    pcompact_settings settings = {3, LARGEST};
    check(collect(block + HEAP, WORDS, block + LIST, 0, settings, &answer) == 0, name, "nothing lives");
    check(answer.new_top == 0 && answer.prefix_end == 0 && answer.filled_regions == 0, name, "figures of nothing");
    check(memcmp(block, wanted, sizeof block) == 0, name, "what is left of nothing");
}

/* No word beside the heap and its list is written. */
static void collect_all(const char *name, int kind, call *collect) {
    uint64_t block[BLOCK], wanted[BLOCK];
    const uint64_t words[WORDS] = {HEADER(3, 1), 0, 22, HEADER(3, 1), TO(0), 33};
    fill(block, kind);
    memcpy(wanted, block, sizeof block);
    memcpy(wanted + HEAP, words, sizeof words);
    wanted[LIST] = kind == ROOTED ? TO(3) : 0;
    wanted[LIST + 1] = kind == ROOTED ? TO(0) : 3;
    pcompact_answer answer;
    pcompact_settings settings = {3, 0};
    check(collect(block + HEAP, WORDS, block + LIST, TAIL, settings, &answer) == 0, name, "a collection");
    check(memcmp(block, wanted, sizeof block) == 0, name, "what a collection leaves");
}

/* The calls that collect, and the one that only tells. */
static const struct {
    const char *name;
    int kind;
    call *make;
} calls[] = {
    {"summary", LIVE, summarize},
    {"collect", LIVE, pcompact_collect},
    {"collect_in_place", LIVE, pcompact_collect_in_place},
    {"collect_rooted", ROOTED, pcompact_collect_rooted},
    {"collect_in_place_rooted", ROOTED, pcompact_collect_in_place_rooted},
};

int main(void) {
    for (size_t c = 0; c < sizeof calls / sizeof *calls; c++) {
        for (size_t i = 0; i < sizeof rows / sizeof *rows; i++) {
            if (rows[i].kind == calls[c].kind) refuse(&rows[i], calls[c].name, calls[c].make);
        }
        if (calls[c].make == summarize) continue;
        collect_nothing(calls[c].name, calls[c].kind, calls[c].make);
        collect_all(calls[c].name, calls[c].kind, calls[c].make);
    }
    printf("%d passed, %d failed\n", passed, failed);
    return failed != 0;
}
