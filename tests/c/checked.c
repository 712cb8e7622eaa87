/* Collections in place whose threads also check the heap: each must leave what one call leaves, and find the fault that one call
 * finds. Then calls that are refused, and each allocation of a begin refused in turn.
 *
 * usage: checked */
#include "pcompact.h"
#include "refusing_heap.h"
#include <pthread.h>
#include <stdbool.h>
#include <stdio.h>
#include <stdlib.h>
#include <string.h>

/* More than 8 times the 2,048 objects that a worker takes at once. */
enum { REGION_LOG = 5, CELL = 4, CELLS = 24000, WORDS = 3 << 15, MOST = 16, FEW_CELLS = 300, FEW_WORDS = 1280 };

static int passed, failed;

static bool check(bool holds, const char *what, size_t number) {
    passed += holds;
    failed += !holds;
    if (!holds) printf("failed: %s (%zu)\n", what, number);
    return holds;
}

typedef struct heap {
    uint64_t words[WORDS], list[CELLS];
    size_t word_count, list_count;
    bool is_rooted;
} heap;

static const pcompact_settings settings = {REGION_LOG, 20};

/* Cells of which four of five live, each with references to the next and the first of them. */
static void make_heap(heap *it, size_t word_count, size_t cells, bool is_rooted) {
    memset(it, 0, sizeof *it);
    it->word_count = word_count;
    it->is_rooted = is_rooted;
    for (size_t cell = 0; cell < cells; cell++) {
        uint64_t *words = it->words + cell * CELL;
        words[0] = (UINT64_C(1) << 56) + (UINT64_C(2) << 32) + CELL;
        words[3] = cell;
        if (cell % 5 == 4) continue;
        size_t next = cell % 5 == 3 ? cell + 2 : cell + 1;
        words[1] = next < cells ? next * CELL + 1 : 0;
        words[2] = 1;
        if (!is_rooted || cell == 0) it->list[it->list_count++] = cell * CELL + is_rooted;
    }
}

static bool are_same(const heap *one, const heap *other) {
    return memcmp(one, other, offsetof(heap, is_rooted)) == 0;
}

static bool have_same_figures(const pcompact_answer *one, const pcompact_answer *other) {
    return one->prefix_end == other->prefix_end && one->new_top == other->new_top && one->filled_regions == other->filled_regions;
}

static uint32_t collect(heap *it, pcompact_answer *answer) {
    return (it->is_rooted ? pcompact_collect_in_place_rooted : pcompact_collect_in_place)(it->words, it->word_count, it->list,
                                                                                          it->list_count, settings, answer);
}

/* The handles and regions of a collection. */
typedef struct session {
    pcompact_handle handles[MOST];
    pcompact_regions regions;
} session;

static const session no_session;

static uint32_t begin_check(session *s, heap *it, size_t workers) {
    return (it->is_rooted ? pcompact_begin_check_in_place_rooted : pcompact_begin_check_in_place)(
               it->words, it->word_count, it->list, it->list_count, settings, s->handles, workers, &s->regions)
        .number;
}

static uint32_t begin_checked(session *s, size_t workers) {
    return pcompact_begin_checked_in_place(s->handles, workers, &s->regions).number;
}

static uint32_t end(session *s, heap *it, size_t workers, pcompact_answer *answer) {
    return pcompact_end_in_place(s->handles, workers, &s->regions, it->list, it->list_count, answer);
}

static bool is_over(const session *s) {
    for (size_t i = 0; i < MOST; i++) {
        if (s->handles[i].is_held) return false;
    }
    return !s->regions.at;
}

static void *work_all(void *handle) {
    return (void *)(uintptr_t)pcompact_work_all(handle);
}

/* One turn at a time. */
static void *work_in_turns(void *handle) {
    uint32_t how;
    do how = pcompact_work(handle, 1);
    while (how == PCOMPACT_TURNS_USED || how == PCOMPACT_NONE_READY);
    return (void *)(uintptr_t)how;
}

static void *stay_idle(void *handle) {
    (void)handle;
    return (void *)(uintptr_t)PCOMPACT_SETTLED;
}

typedef void *working(void *);

static void work_by(session *s, size_t workers, working *work) {
    pthread_t threads[MOST];
    for (size_t i = 0; i < workers; i++) {
        if (pthread_create(&threads[i], NULL, work, &s->handles[i]) != 0) exit(2);
    }
    for (size_t i = 0; i < workers; i++) {
        void *how;
        pthread_join(threads[i], &how);
        check((uintptr_t)how == PCOMPACT_SETTLED, "a worker's end", i);
    }
}

/* The heaps, what one call makes of them, and room for a copy. */
static heap before[2], wanted[2], found;
static pcompact_answer answers[2];

static void make_heaps(size_t word_count, size_t cells) {
    for (int kind = 0; kind < 2; kind++) {
        make_heap(&before[kind], word_count, cells, kind == 1);
        wanted[kind] = before[kind];
        check(collect(&wanted[kind], &answers[kind]) == 0 && answers[kind].filled_regions > 2, "one call", (size_t)kind);
    }
}

static void collect_by_threads(int kind, size_t workers, working *check_by, working *fill_by) {
    session s = no_session;
    pcompact_answer answer;
    found = before[kind];
    if (!check(begin_check(&s, &found, workers) == 0, "a begin of a check", workers)) return;
    work_by(&s, workers, check_by);
    check(are_same(&found, &before[kind]), "a check leaves the heap", workers);
    if (!check(begin_checked(&s, workers) == 0, "a begin after a check", workers)) return;
    work_by(&s, workers, fill_by);
    check(end(&s, &found, workers, &answer) == 0 && is_over(&s), "an end", workers);
    check(are_same(&found, &wanted[kind]), "the heap of one call", workers);
    check(have_same_figures(&answer, &answers[kind]), "the figures of one call", workers);
}

/* A heap with these words at this address must be refused as by one call, which leaves it as it was. */
static void refuse_heap(int kind, uint64_t address, uint64_t word, uint32_t fault, working *check_by) {
    static heap wrong;
    session s = no_session;
    pcompact_answer answer;
    wrong = before[kind];
    wrong.words[address] = word;
    found = wrong;
    check(collect(&found, &answer) == fault, "the fault of one call", fault);
    check(begin_check(&s, &found, 3) == 0, "a begin of a wrong heap's check", fault);
    work_by(&s, 3, check_by);
    pcompact_fault is = pcompact_begin_checked_in_place(s.handles, 3, &s.regions);
    check(is.number == fault && is.place == answer.fault.place && is.field == answer.fault.field, "the same fault", is.number);
    check(is_over(&s) && are_same(&found, &wrong), "the heap as it was", fault);
}

static void refuse_heaps(void) {
    const uint64_t last = 4 * (CELLS - 3), header = (UINT64_C(1) << 56) + (UINT64_C(2) << 32);
    for (int kind = 0; kind < 2; kind++) {
        working *ways[] = {work_all, work_in_turns, stay_idle};
        for (size_t i = 0; i < sizeof ways / sizeof *ways; i++) {
            refuse_heap(kind, last, 5, 7, ways[i]);
            refuse_heap(kind, last, header + CELL + 1, 8, ways[i]);
            refuse_heap(kind, last + 1, UINT64_MAX, 9, ways[i]);
        }
    }
    refuse_heap(0, last + 1, 4 * CELL + 1, 9, work_all);
}

/* Calls for another kind of collection, or with other handles, must leave this one as it is. */
static void refuse_calls(int kind) {
    session s = no_session, other = no_session;
    pcompact_answer answer;
    static heap second;
    found = second = before[kind];
    check(begin_checked(&s, 2) == 12, "no check has begun", 12);
    check(begin_check(&s, &found, 3) == 0 && begin_check(&other, &second, 2) == 0, "two begins", 2);
    check(begin_check(&s, &found, 3) == 12, "a second begin", 12);
    check(begin_checked(&s, 2) == 12, "fewer handles", 12);
    check(end(&s, &found, 3, &answer) == 12, "an end before the collection", 12);
    check(pcompact_forget(&s.handles[0]) == 12, "a worker's part isn't forgotten", 12);
    check(pcompact_new_address(&s.handles[0], 0) == UINT64_MAX, "no address is new", 0);
    pcompact_handle own = s.handles[2];
    s.handles[2] = other.handles[1];
    check(begin_checked(&s, 3) == 12, "a handle of another check", 12);
    s.handles[2] = own;
    pcompact_regions regions = s.regions;
    s.regions = other.regions;
    check(begin_checked(&s, 3) == 12, "the regions of another check", 12);
    s.regions = regions;
    check(begin_checked(&s, 3) == 0 && begin_checked(&other, 2) == 0, "both begin", 2);
    check(begin_checked(&s, 3) == 12, "no check is left", 12);
    check(end(&s, &found, 3, &answer) == 0 && end(&other, &second, 2, &answer) == 0, "both end", 2);
    check(are_same(&found, &wanted[kind]) && are_same(&second, &wanted[kind]), "both heaps", 2);
}

/* A begin of a check, and one of the collection, of which this many allocations succeed. Whether one was refused. */
static bool begin_with(int kind, long allocations) {
    session s = no_session;
    pcompact_answer answer;
    found = before[kind];
    requests_left = allocations;
    uint32_t fault = begin_check(&s, &found, 3);
    if (fault == 0) {
        check(pcompact_work_all(&s.handles[1]) == PCOMPACT_SETTLED, "work without memory", 0);
        fault = begin_checked(&s, 3);
    }
    requests_left = -1;
    if (fault == 0) {
        check(end(&s, &found, 3, &answer) == 0 && are_same(&found, &wanted[kind]), "an end", allocations);
        return false;
    }
    check(fault == 11 && is_over(&s) && are_same(&found, &before[kind]), "a begin without memory", allocations);
    return true;
}

static void refuse_memory(int kind) {
    long allocations = 0, held = blocks_held;
    while (begin_with(kind, allocations)) {
        check(blocks_held == held, "a block is left", allocations);
        allocations++;
    }
    check(blocks_held == held && allocations > 10, "a block is left at the end", allocations);
    printf("begin: %ld allocations, each refused in turn\n", allocations);
}

int main(void) {
    static const size_t workers[] = {1, 2, 4, MOST};
    make_heaps(WORDS, CELLS);
    for (int kind = 0; kind < 2; kind++) {
        for (size_t i = 0; i < sizeof workers / sizeof *workers; i++) {
            collect_by_threads(kind, workers[i], work_all, work_all);
            collect_by_threads(kind, workers[i], work_in_turns, work_in_turns);
            collect_by_threads(kind, workers[i], stay_idle, stay_idle);
        }
    }
    refuse_heaps();
    make_heaps(FEW_WORDS, FEW_CELLS);
    for (int kind = 0; kind < 2; kind++) {
        refuse_calls(kind);
        refuse_memory(kind);
    }
    check(blocks_held == 0, "a block is left in all", (size_t)blocks_held);
    printf("%d passed, %d failed\n", passed, failed);
    return failed != 0;
}
