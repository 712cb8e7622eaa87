/* Each call with each of its allocations refused in turn, by functions of memory that stand in the place of the
 * library's: the fault must be 11, and all must be as it was, but for two blocks at most that a call can do without. No
 * block may be left.
 *
 * usage: refusals */
#include "pcompact.h"
#include <stdbool.h>
#include <stdio.h>
#include <stdlib.h>
#include <string.h>

enum { REGION_LOG = 3, WORDS = 512, CELL = 5, CELLS = 64, FRONT = 32 };

static int passed, failed;

static void check(int holds, const char *call, size_t number, const char *what) {
    passed += holds;
    failed += !holds;
    if (!holds) printf("failed: %s, allocation %zu refused: %s\n", call, number, what);
}

/* How many blocks were asked for, which of them is refused, and how many aren't freed. */
static size_t asked, refused, blocks;

struct tried {
    bool is_ok;
    void *at;
};

static struct tried try_block(void *block) {
    static char none;
    return (struct tried){block != NULL, block != NULL ? block : &none};
}

struct tried rattle_alloc(size_t size, size_t align) {
    void *block = ++asked == refused ? NULL : malloc(size > 0 ? size : align);
    blocks += block != NULL;
    return try_block(block);
}

struct tried rattle_realloc(void *block, size_t kept, size_t size, size_t align) {
    (void)kept;
    return try_block(++asked == refused ? NULL : realloc(block, size > 0 ? size : align));
}

void rattle_dealloc(void *block) {
    blocks--;
    free(block);
}

/* A heap of cells, each with a reference to the next but one and one to the first. Every third cell lives. In the same
 * block are the front of its image before the words, and its live addresses or roots behind them. */
typedef struct heap {
    uint8_t front[FRONT];
    uint64_t words[WORDS], tail[CELLS];
    size_t tail_count;
} heap;

static uint64_t number_of(size_t cell, bool is_rooted) {
    return cell * CELL + is_rooted;
}

static void make_heap(heap *it, bool is_rooted) {
    memset(it, 0, sizeof *it);
    for (size_t cell = 0; cell < CELLS; cell++) {
        uint64_t *words = it->words + number_of(cell, false);
        words[0] = UINT64_C(1) << 56 | UINT64_C(2) << 32 | CELL;
        words[1] = cell + 3 < CELLS ? number_of(cell + 3, true) : 0;
        words[2] = number_of(cell % 3, true);
        words[3] = cell;
        if (cell % 3 == 1) it->tail[it->tail_count++] = number_of(cell, is_rooted);
    }
    const uint32_t sizes[] = {REGION_LOG, (uint32_t)it->tail_count};
    const uint64_t word_count = WORDS;
    memcpy(it->front, is_rooted ? "PCHEAP02" : "PCHEAP01", 8);
    memcpy(it->front + 8, sizes, sizeof sizes);
    memcpy(it->front + 16, &word_count, sizeof word_count);
}

static const pcompact_settings settings = {REGION_LOG, 0};

static uint32_t call_collect(heap *it, pcompact_answer *answer) {
    return pcompact_collect(it->words, WORDS, it->tail, it->tail_count, settings, answer);
}

static uint32_t call_collect_rooted(heap *it, pcompact_answer *answer) {
    return pcompact_collect_rooted(it->words, WORDS, it->tail, it->tail_count, settings, answer);
}

static uint32_t call_collect_in_place(heap *it, pcompact_answer *answer) {
    return pcompact_collect_in_place(it->words, WORDS, it->tail, it->tail_count, settings, answer);
}

static uint32_t call_collect_in_place_rooted(heap *it, pcompact_answer *answer) {
    return pcompact_collect_in_place_rooted(it->words, WORDS, it->tail, it->tail_count, settings, answer);
}

static uint32_t call_summary(heap *it, pcompact_answer *answer) {
    return pcompact_summary(it->words, WORDS, it->tail, it->tail_count, settings, answer);
}

static size_t image_bytes(const heap *it) {
    return FRONT + 8 * (WORDS + it->tail_count);
}

static uint32_t call_summary_of_image(heap *it, pcompact_answer *answer) {
    return pcompact_summary_of_image((const uint8_t *)it, image_bytes(it), answer);
}

static uint32_t call_check(heap *it, pcompact_answer *answer) {
    memset(answer, 0, sizeof *answer);
    answer->fault = pcompact_check((const uint8_t *)it, image_bytes(it));
    return answer->fault.number;
}

/* What a call leaves and answers if no memory is refused, and how many blocks it has done without. */
static heap wanted;
static pcompact_answer wanted_answer;
static size_t spared;

static bool is_wanted(const heap *it, const pcompact_answer *answer) {
    return memcmp(it, &wanted, sizeof wanted) == 0 && answer->fault.number == 0 && answer->prefix_end == wanted_answer.prefix_end &&
           answer->new_top == wanted_answer.new_top && answer->filled_regions == wanted_answer.filled_regions;
}

static void check_refused(const heap *it, const pcompact_answer *answer, bool is_rooted, const char *name, size_t number) {
    static heap same;
    make_heap(&same, is_rooted);
    check(answer->fault.number == 11, name, number, "the fault");
    check(answer->fault.field == 0 && answer->fault.place == 0, name, number, "its particulars");
    check(answer->prefix_end == 0 && answer->new_top == 0 && answer->filled_regions == 0, name, number, "its figures");
    check(memcmp(it, &same, sizeof same) == 0, name, number, "the memory isn't as it was");
}

/* Makes a call with this allocation refused. Whether it is asked for. */
static bool refuse(const char *name, uint32_t (*call)(heap *, pcompact_answer *), bool is_rooted, size_t number) {
    static heap it;
    make_heap(&it, is_rooted);
    asked = blocks = 0;
    refused = number;
    pcompact_answer answer;
    uint32_t fault = call(&it, &answer);
    bool is_asked = asked >= number;
    check(blocks == 0, name, number, "a block is left");
    check(answer.fault.number == fault, name, number, "the number of the fault");
    if (fault == 0) {
        spared += is_asked;
        check(is_wanted(&it, &answer), name, number, "what is wanted");
    } else {
        check_refused(&it, &answer, is_rooted, name, number);
    }
    return is_asked;
}

static void each(const char *name, uint32_t (*call)(heap *, pcompact_answer *), bool is_rooted) {
    make_heap(&wanted, is_rooted);
    refused = spared = 0;
    check(call(&wanted, &wanted_answer) == 0, name, 0, "the call");
    size_t number = 1;
    while (refuse(name, call, is_rooted, number)) number++;
    printf("%s: %zu allocations, each refused in turn, %zu of them spared\n", name, number - 1, spared);
    check(number > 1 && spared <= 3, name, 0, "the memory that it takes");
}

int main(void) {
    each("pcompact_collect", call_collect, false);
    each("pcompact_collect_rooted", call_collect_rooted, true);
    each("pcompact_collect_in_place", call_collect_in_place, false);
    each("pcompact_collect_in_place_rooted", call_collect_in_place_rooted, true);
    each("pcompact_summary", call_summary, false);
    each("pcompact_summary_of_image", call_summary_of_image, false);
    each("pcompact_summary_of_image, with roots", call_summary_of_image, true);
    each("pcompact_check", call_check, false);
    each("pcompact_check, with roots", call_check, true);
    printf("%d passed, %d failed\n", passed, failed);
    return failed != 0;
}
