/* Collections by several threads over lent regions: each must leave what one call leaves on a copy of the heap, each region where
 * it lay. Then calls that are refused, after which all is as it was, and each allocation of a begin and of an end refused in turn.
 *
 * usage: lent_threads */
#include "pcompact.h"
#include "refusing_heap.h"
#include <pthread.h>
#include <stdbool.h>
#include <stdio.h>
#include <stdlib.h>
#include <string.h>

enum { REGION_LOG = 5, SIZE = 1 << REGION_LOG, GAP = 3, CELL = 5, CELLS = 13000, WORDS = 1 << 16, REGIONS = WORDS / SIZE,
       LEAST_WORDS = 1 << 9, LEAST_CELLS = 100, MOST = 64, BLOCK = WORDS + GAP * (REGIONS + 1) };

static int passed, failed;

static bool check(bool holds, const char *what, size_t number) {
    passed += holds;
    failed += !holds;
    if (!holds) printf("failed: %s (%zu)\n", what, number);
    return holds;
}

/* A heap in one piece with its live addresses or roots. */
typedef struct heap {
    uint64_t words[WORDS], list[CELLS];
    size_t word_count, list_count;
    bool is_rooted;
} heap;

/* The same heap in regions that don't touch. */
typedef struct lent {
    uint64_t block[BLOCK], list[CELLS];
    pcompact_words parts[REGIONS];
    size_t region_count, list_count;
    bool is_rooted;
} lent;

static const pcompact_settings settings = {REGION_LOG, 20};

/* Cells of which some live, each with a reference to a later cell that lives and one to an earlier cell. */
static void make_heap(heap *it, size_t word_count, size_t cells, bool is_rooted) {
    memset(it, 0, sizeof *it);
    it->word_count = word_count;
    it->is_rooted = is_rooted;
    for (size_t cell = 0; cell < cells; cell++) {
        uint64_t *words = it->words + cell * CELL;
        words[0] = UINT64_C(1) << 56 | UINT64_C(2) << 32 | CELL;
        if (cell % 3 == 1) {
            words[1] = cell + 3 < cells ? (cell + 3) * CELL + 1 : 0;
            words[2] = CELL + 1;
        }
        words[3] = cell;
        words[4] = ~cell;
        if (is_rooted ? cell % 1000 == 1 : cell % 3 == 1) it->list[it->list_count++] = cell * CELL + is_rooted;
    }
}

/* The regions in reverse order, with words of the host between them. */
static void lay_apart(const heap *it, lent *out) {
    memset(out, 0, sizeof *out);
    for (size_t i = 0; i < BLOCK; i++) out->block[i] = 900 + i;
    out->region_count = it->word_count / SIZE;
    out->list_count = it->list_count;
    out->is_rooted = it->is_rooted;
    memcpy(out->list, it->list, sizeof out->list);
    for (size_t r = 0; r < out->region_count; r++) {
        uint64_t *place = out->block + GAP + (out->region_count - 1 - r) * (SIZE + GAP);
        memcpy(place, it->words + r * SIZE, SIZE * sizeof *place);
        out->parts[r] = (pcompact_words){true, place, SIZE};
    }
}

static uint32_t collect(heap *it, pcompact_answer *answer) {
    return (it->is_rooted ? pcompact_collect_rooted : pcompact_collect)(it->words, it->word_count, it->list, it->list_count,
                                                                        settings, answer);
}

static uint32_t begin(lent *it, pcompact_handle *handles, size_t workers) {
    return (it->is_rooted ? pcompact_begin_lent_rooted : pcompact_begin_lent)(it->parts, it->region_count, it->list,
                                                                              it->list_count, settings, handles, workers).number;
}

static uint32_t end(lent *it, pcompact_handle *handles, size_t workers, pcompact_answer *answer) {
    return pcompact_end_lent(handles, workers, it->parts, it->region_count, it->list, it->list_count, answer);
}

/* What lies between the fields of a struct doesn't count. */
static bool are_same(const lent *one, const lent *other) {
    for (size_t r = 0; r < REGIONS; r++) {
        const pcompact_words *part = &one->parts[r], *same_part = &other->parts[r];
        if (part->is_held != same_part->is_held || part->at != same_part->at || part->len != same_part->len) return false;
    }
    return memcmp(one->block, other->block, sizeof one->block) == 0 && memcmp(one->list, other->list, sizeof one->list) == 0;
}

static bool are_same_handles(const pcompact_handle *one, const pcompact_handle *other, size_t workers) {
    for (size_t i = 0; i < workers; i++) {
        if (one[i].is_held != other[i].is_held || one[i].at != other[i].at) return false;
    }
    return true;
}

static size_t held_handles(const pcompact_handle *handles, size_t workers) {
    size_t held = 0;
    for (size_t i = 0; i < workers; i++) held += handles[i].is_held;
    return held;
}

static bool is_none_held(const lent *it) {
    for (size_t r = 0; r < it->region_count; r++) {
        if (it->parts[r].is_held) return false;
    }
    return true;
}

/* The heaps and what one call makes of them, in one piece and in regions; the regions at work. */
static heap after;
static lent before[2], wanted[2], found, second, same;
static pcompact_answer answers[2];

static void make_heaps(size_t word_count, size_t cells) {
    for (int kind = 0; kind < 2; kind++) {
        make_heap(&after, word_count, cells, kind == 1);
        lay_apart(&after, &before[kind]);
        check(collect(&after, &answers[kind]) == 0, "one call", (size_t)kind);
        check(answers[kind].filled_regions > 2, "a heap with regions to fill", (size_t)kind);
        lay_apart(&after, &wanted[kind]);
    }
}

/* Lays a heap out in places of its own. */
static void lay_out(int kind, lent *it) {
    *it = before[kind];
    for (size_t r = 0; r < it->region_count; r++) it->parts[r].at = it->block + (before[kind].parts[r].at - before[kind].block);
}

/* Whether it has this heap, with its regions held where they were lent. */
static bool is_as(const lent *it, const lent *heap) {
    for (size_t r = 0; r < it->region_count; r++) {
        const pcompact_words *part = &it->parts[r];
        if (!part->is_held || part->len != SIZE || part->at - it->block != heap->parts[r].at - heap->block) return false;
    }
    return memcmp(it->block, heap->block, sizeof it->block) == 0 && memcmp(it->list, heap->list, sizeof it->list) == 0;
}

static bool has_figures(const pcompact_answer *one, const pcompact_answer *other) {
    return one->fault.number == 0 && one->prefix_end == other->prefix_end && one->new_top == other->new_top
        && one->filled_regions == other->filled_regions;
}

static void *work_all(void *handle) {
    return (void *)(uintptr_t)pcompact_work_all(handle);
}

/* A few regions at a time. */
static void *work_in_turns(void *handle) {
    uint32_t how;
    do how = pcompact_work(handle, 3);
    while (how == PCOMPACT_TURNS_USED || how == PCOMPACT_NONE_READY);
    return (void *)(uintptr_t)how;
}

/* The first worker doesn't work: the end does what is left. */
static void *stay_idle(void *handle) {
    (void)handle;
    return (void *)(uintptr_t)PCOMPACT_SETTLED;
}

static void end_well(int kind, lent *it, pcompact_handle *handles, size_t workers) {
    pcompact_answer answer;
    check(end(it, handles, workers, &answer) == 0 && has_figures(&answer, &answers[kind]), "an end", workers);
    check(is_as(it, &wanted[kind]), "the heap of one call, in its places", workers);
    check(held_handles(handles, workers) == 0, "free handles", workers);
}

static void collect_by_threads(int kind, size_t workers, void *(*first)(void *), void *(*work)(void *)) {
    pcompact_handle handles[MOST] = {{false, NULL}};
    pthread_t threads[MOST];
    lay_out(kind, &found);
    if (!check(begin(&found, handles, workers) == 0, "a begin", workers)) return;
    check(is_none_held(&found) && held_handles(handles, workers) == workers, "what a begin holds", workers);
    for (size_t i = 0; i < workers; i++) {
        if (pthread_create(&threads[i], NULL, i == 0 ? first : work, &handles[i]) != 0) exit(2);
    }
    for (size_t i = 0; i < workers; i++) {
        void *how;
        pthread_join(threads[i], &how);
        check((uintptr_t)how == PCOMPACT_SETTLED, "a worker's end", i);
    }
    end_well(kind, &found, handles, workers);
}

/* A begin that returns this fault, and leaves handles, words and list. */
static void refuse_begin(const char *what, lent *it, pcompact_handle *handles, size_t workers, uint32_t fault) {
    pcompact_handle held[MOST + 1];
    memcpy(held, handles, workers * sizeof *handles);
    same = *it;
    check(begin(it, handles, workers) == fault, what, fault);
    check(are_same(it, &same) && are_same_handles(held, handles, workers), what, workers);
}

/* An end that returns this fault, and leaves handles, words and list. */
static void refuse_end(const char *what, lent *it, pcompact_handle *handles, size_t workers, uint32_t fault) {
    pcompact_handle held[MOST + 1];
    pcompact_answer answer;
    memset(&answer, 0x5a, sizeof answer);
    memcpy(held, handles, workers * sizeof *handles);
    same = *it;
    check(end(it, handles, workers, &answer) == fault && answer.fault.number == fault, what, fault);
    check(answer.new_top == 0 && answer.filled_regions == 0 && are_same(it, &same), what, workers);
    for (size_t i = 0; i < workers; i++) check(held[i].is_held == handles[i].is_held, what, i);
}

static void refuse_begins(int kind) {
    pcompact_handle handles[MOST + 1];
    memset(handles, 0, sizeof handles);
    lay_out(kind, &found);
    refuse_begin("a begin of no handles", &found, handles, 0, 12);
    refuse_begin("a begin of 65 handles", &found, handles, MOST + 1, 12);
    found.parts[1].is_held = false;
    refuse_begin("a part that isn't held", &found, handles, 2, 4);
    lay_out(kind, &found);
    found.parts[found.region_count - 1].len--;
    refuse_begin("a part with fewer words", &found, handles, 2, 4);
    lay_out(kind, &found);
    found.parts[0] = (pcompact_words){false, NULL, 0};
    refuse_begin("a part without words", &found, handles, 2, 4);
    lay_out(kind, &found);
    found.list[kind == 0] = kind == 0 ? found.list[0] : UINT64_MAX;
    refuse_begin("a wrong number", &found, handles, 2, kind == 0 ? 6 : 17);
    lay_out(kind, &found);
    found.parts[0].at[CELL] = 0;
    refuse_begin("a header that is none", &found, handles, 2, 7);
}

static void refuse_ends(void) {
    pcompact_handle handles[4] = {{false, NULL}}, others[2] = {{false, NULL}}, mixed[2];
    lay_out(0, &found);
    refuse_end("an end of no handles", &found, handles, 0, 12);
    refuse_end("an end of handles that aren't held", &found, handles, 3, 12);
    lay_out(1, &second);
    check(begin(&found, handles, 3) == 0 && begin(&second, others, 2) == 0, "two begins", 2);
    refuse_begin("a begin over held handles", &found, handles, 3, 12);
    refuse_end("an end of two of three handles", &found, handles, 2, 12);
    refuse_end("an end of the last handle alone", &found, handles + 2, 1, 12);
    refuse_end("an end of one handle too many", &found, handles, 4, 12);
    mixed[0] = handles[0];
    mixed[1] = others[0];
    refuse_end("an end of two sessions", &second, mixed, 2, 12);
    handles[0] = mixed[0];
    others[0] = mixed[1];
    found.region_count--;
    refuse_end("an end with fewer regions", &found, handles, 3, 4);
    found.region_count++;
    found.list_count++;
    refuse_end("an end with a longer list", &found, handles, 3, 4);
    found.list_count--;
    uint64_t spare[8] = {0};
    pcompact_words lent = found.parts[1];
    found.parts[1] = (pcompact_words){true, spare, 8};
    refuse_end("an end with words that are held", &found, handles, 3, 4);
    found.parts[1] = lent;
    check(pcompact_work_all(&handles[1]) == PCOMPACT_SETTLED, "work after ends that are refused", 1);
    end_well(0, &found, handles, 3);
    end_well(1, &second, others, 2);
    refuse_end("a second end", &found, handles, 3, 12);
}

/* A begin of which this many allocations succeed. Whether one was refused. */
static bool begin_with(int kind, long allocations) {
    pcompact_handle handles[3] = {{false, NULL}};
    lay_out(kind, &found);
    requests_left = allocations;
    uint32_t fault = begin(&found, handles, 3);
    requests_left = -1;
    if (fault == 0) {
        end_well(kind, &found, handles, 3);
        return false;
    }
    check(fault == 11 && held_handles(handles, 3) == 0 && is_as(&found, &before[kind]), "a begin without memory", (size_t)allocations);
    return true;
}

/* An end of which this many allocations succeed, and then another. */
static bool end_with(int kind, long allocations) {
    pcompact_handle handles[3] = {{false, NULL}};
    pcompact_answer answer;
    lay_out(kind, &found);
    if (!check(begin(&found, handles, 3) == 0, "a begin", (size_t)allocations)) return false;
    requests_left = allocations;
    uint32_t fault = end(&found, handles, 3, &answer);
    requests_left = -1;
    if (fault == 0) {
        check(is_as(&found, &wanted[kind]), "an end with memory", (size_t)allocations);
        return false;
    }
    check(fault == 11 && held_handles(handles, 3) == 3, "an end without memory", (size_t)allocations);
    end_well(kind, &found, handles, 3);
    return true;
}

static void refuse_memory(const char *what, bool (*call)(int, long)) {
    for (int kind = 0; kind < 2; kind++) {
        long allocations = 0, held = blocks_held;
        while (call(kind, allocations)) {
            check(blocks_held == held, "a block is left", (size_t)allocations);
            allocations++;
        }
        check(blocks_held == held && allocations > 0, "a block is left at the end", (size_t)allocations);
        printf("%s: %ld allocations, each refused in turn\n", what, allocations);
    }
}

int main(void) {
    static const size_t workers[] = {1, 2, 4, 16};
    make_heaps(WORDS, CELLS);
    for (int kind = 0; kind < 2; kind++) {
        for (size_t i = 0; i < sizeof workers / sizeof *workers; i++) {
            collect_by_threads(kind, workers[i], work_all, work_all);
            collect_by_threads(kind, workers[i], work_in_turns, work_in_turns);
            collect_by_threads(kind, workers[i], stay_idle, work_in_turns);
        }
    }
    make_heaps(LEAST_WORDS, LEAST_CELLS);
    refuse_begins(0);
    refuse_begins(1);
    refuse_ends();
    refuse_memory("begin", begin_with);
    refuse_memory("end", end_with);
    check(blocks_held == 0, "a block is left in all", (size_t)blocks_held);
    printf("%d passed, %d failed\n", passed, failed);
    return failed != 0;
}
