/* Collections by several threads: each must leave what one call leaves on a copy of the heap. Then calls that are refused, and
 * each allocation of a begin and of an end refused in turn.
 *
 * usage: threads */
#include "pcompact.h"
#include "refusing_heap.h"
#include <pthread.h>
#include <sched.h>
#include <stdbool.h>
#include <stdio.h>
#include <stdlib.h>
#include <string.h>

enum { REGION_LOG = 5, CELL = 5, CELLS = 13000, WORDS = 1 << 16, LEAST_WORDS = 1 << 9, LEAST_CELLS = 100, MOST = 64 };

static int passed, failed;

static bool check(bool holds, const char *what, size_t number) {
    passed += holds;
    failed += !holds;
    if (!holds) printf("failed: %s (%zu)\n", what, number);
    return holds;
}

/* A heap with its live addresses or roots. */
typedef struct heap {
    uint64_t words[WORDS], list[CELLS];
    size_t word_count, list_count;
    bool is_rooted;
} heap;

/* What a collection says and leaves. */
typedef struct collection {
    heap heap;
    pcompact_answer answer;
} collection;

static const pcompact_settings settings = {REGION_LOG, 20};

/* Cells of which some live, each with a reference to a later cell that lives and one to an earlier cell. */
static void make_heap(heap *it, size_t word_count, size_t cells, bool is_rooted) {
    memset(it, 0, sizeof *it);
    it->word_count = word_count;
    it->is_rooted = is_rooted;
    for (size_t cell = 0; cell < cells; cell++) {
        uint64_t *words = it->words + cell * CELL;
        words[0] = UINT64_C(1) << 56 | UINT64_C(2) << 32 | CELL;
        words[1] = cell + 3 < cells ? (cell + 3) * CELL + 1 : 0;
        words[2] = cell % 3 * CELL + 1;
        words[3] = cell;
        words[4] = ~cell;
        if (is_rooted ? cell % 1000 == 1 : cell % 3 == 1) it->list[it->list_count++] = cell * CELL + is_rooted;
        if (cell % 3 != 1) words[1] = words[2] = 0;
        if (cell % 3 == 1) words[2] = CELL + 1;
    }
}

static uint32_t collect(collection *it) {
    heap *h = &it->heap;
    return (h->is_rooted ? pcompact_collect_rooted : pcompact_collect)(h->words, h->word_count, h->list, h->list_count,
                                                                       settings, &it->answer);
}

static pcompact_fault begin(const heap *it, pcompact_handle *handles, size_t workers) {
    return (it->is_rooted ? pcompact_begin_rooted : pcompact_begin)(it->words, it->word_count, it->list, it->list_count,
                                                                    settings, handles, workers);
}

static uint32_t end(collection *it, pcompact_handle *handles, size_t workers) {
    heap *h = &it->heap;
    return pcompact_end(handles, workers, h->words, h->word_count, h->list, h->list_count, &it->answer);
}

/* What lies between the fields of a struct doesn't count. */
static bool are_same(const heap *one, const heap *other) {
    return memcmp(one, other, offsetof(heap, is_rooted)) == 0;
}

static bool are_same_handles(const pcompact_handle *one, const pcompact_handle *other, size_t workers) {
    for (size_t i = 0; i < workers; i++) {
        if (one[i].is_held != other[i].is_held || one[i].at != other[i].at) return false;
    }
    return true;
}

static bool are_free(const pcompact_handle *handles, size_t workers) {
    for (size_t i = 0; i < workers; i++) {
        if (handles[i].is_held) return false;
    }
    return true;
}

static bool have_same_figures(const pcompact_answer *one, const pcompact_answer *other) {
    return one->prefix_end == other->prefix_end && one->new_top == other->new_top
        && one->filled_regions == other->filled_regions;
}

/* The heaps, what one call makes of them, and room for a copy. */
static heap before[2];
static collection wanted[2], found;

static void make_heaps(size_t word_count, size_t cells) {
    for (int kind = 0; kind < 2; kind++) {
        make_heap(&before[kind], word_count, cells, kind == 1);
        wanted[kind].heap = before[kind];
        check(collect(&wanted[kind]) == 0, "one call", kind);
        check(wanted[kind].answer.filled_regions > 2, "a heap with regions to fill", kind);
    }
}

static void *work_all(void *handle) {
    return (void *)(uintptr_t)pcompact_work_all(handle);
}

/* A few regions at a time. */
static void *work_in_turns(void *handle) {
    uint32_t how;
    do how = pcompact_work(handle, 3);
    while (how == PCOMPACT_TURNS_USED || how == PCOMPACT_NONE_READY);
    return (void *)(uintptr_t)how;
}

static _Atomic size_t yields;

static int yield(void) {
    yields++;
    return sched_yield();
}

static void *work_yielding(void *handle) {
    return (void *)(uintptr_t)pcompact_work_yielding(handle, yield);
}

/* The first worker doesn't work: the end does what is left. */
static void *stay_idle(void *handle) {
    (void)handle;
    return (void *)(uintptr_t)PCOMPACT_SETTLED;
}

static void collect_by_threads(int kind, size_t workers, void *(*first)(void *), void *(*work)(void *)) {
    pcompact_handle handles[MOST] = {{false, NULL}};
    pthread_t threads[MOST];
    found.heap = before[kind];
    if (!check(begin(&found.heap, handles, workers).number == 0, "a begin", workers)) return;
    check(are_same(&found.heap, &before[kind]), "a begin leaves the heap", workers);
    for (size_t i = 0; i < workers; i++) {
        if (pthread_create(&threads[i], NULL, i == 0 ? first : work, &handles[i]) != 0) exit(2);
    }
    for (size_t i = 0; i < workers; i++) {
        void *how;
        pthread_join(threads[i], &how);
        check((uintptr_t)how == PCOMPACT_SETTLED, "a worker's end", i);
    }
    check(are_same(&found.heap, &before[kind]), "work leaves the heap", workers);
    check(end(&found, handles, workers) == 0 && found.answer.fault.number == 0, "an end", workers);
    check(are_same(&found.heap, &wanted[kind].heap), "the heap of one call", workers);
    check(have_same_figures(&found.answer, &wanted[kind].answer), "the figures of one call", workers);
    check(are_free(handles, workers), "free handles", workers);
}

/* One thread gives each worker a turn. */
static void collect_in_turns(int kind, size_t workers) {
    pcompact_handle handles[MOST] = {{false, NULL}};
    found.heap = before[kind];
    check(begin(&found.heap, handles, workers).number == 0, "a begin for turns", workers);
    check(pcompact_work(&handles[0], 0) == PCOMPACT_TURNS_USED, "no turn", workers);
    size_t settled = 0, turns = 0;
    for (size_t i = 0; settled < workers && turns < 1000000; i = (i + 1) % workers, turns++) {
        settled = pcompact_work(&handles[i], 1) == PCOMPACT_SETTLED ? settled + 1 : 0;
    }
    check(settled == workers && turns >= wanted[kind].answer.filled_regions, "turns", turns);
    check(end(&found, handles, workers) == 0, "an end of turns", workers);
    check(are_same(&found.heap, &wanted[kind].heap), "the heap of turns", workers);
}

/* An end with these handles, which aren't all those of one begin, must leave handles, words and list. */
static void refuse_end(const char *what, pcompact_handle *handles, size_t workers) {
    pcompact_handle same[MOST + 1];
    memcpy(same, handles, workers * sizeof *handles);
    found.heap = before[0];
    memset(&found.answer, 0x5a, sizeof found.answer);
    check(end(&found, handles, workers) == 12 && found.answer.fault.number == 12, what, workers);
    check(found.answer.new_top == 0 && found.answer.filled_regions == 0, what, workers);
    check(are_same(&found.heap, &before[0]) && are_same_handles(same, handles, workers), what, workers);
}

static void end_well(int kind, pcompact_handle *handles, size_t workers) {
    found.heap = before[kind];
    check(end(&found, handles, workers) == 0 && are_same(&found.heap, &wanted[kind].heap), "an end after that", workers);
    check(are_free(handles, workers), "free handles", workers);
}

/* An end with other words or another list than those of the begin must leave these. No handle is held then. */
static void lose_end(const char *what, size_t word_count, size_t list_count) {
    pcompact_handle handles[2] = {{false, NULL}};
    check(begin(&before[0], handles, 2).number == 0, "a begin of two", 2);
    found.heap = before[0];
    found.heap.word_count = word_count;
    found.heap.list_count = list_count;
    check(end(&found, handles, 2) == 4 && are_free(handles, 2), what, 4);
    found.heap.word_count = before[0].word_count;
    found.heap.list_count = before[0].list_count;
    check(are_same(&found.heap, &before[0]), what, 4);
}

static void refuse_begin(const char *what, const heap *it, pcompact_handle *handles, size_t workers, uint32_t fault) {
    pcompact_handle same[MOST + 1];
    memcpy(same, handles, workers * sizeof *handles);
    pcompact_fault is = begin(it, handles, workers);
    check(is.number == fault && is.field == 0, what, is.number);
    check(are_same_handles(same, handles, workers), what, fault);
}

static void refuse_handles_of_none(void) {
    pcompact_handle handles[MOST + 1];
    memset(handles, 0, sizeof handles);
    check(pcompact_work(&handles[0], 5) == PCOMPACT_NOT_HELD, "work on a handle that isn't held", 0);
    check(pcompact_work_all(&handles[0]) == PCOMPACT_NOT_HELD, "all work on a handle that isn't held", 0);
    size_t before_it = yields;
    check(pcompact_work_yielding(&handles[0], yield) == PCOMPACT_NOT_HELD, "yielding work on a handle that isn't held", 0);
    check(yields == before_it, "work on a handle that isn't held yields", yields);
    refuse_end("an end of handles that aren't held", handles, 3);
    refuse_end("an end of no handles", handles, 0);
    refuse_begin("a begin of no handles", &before[0], handles, 0, 12);
    refuse_begin("a begin of 65 handles", &before[0], handles, MOST + 1, 12);
    static heap wrong;
    wrong = before[0];
    wrong.list[1] = wrong.list[0];
    refuse_begin("a live list that descends", &wrong, handles, 2, 6);
    wrong = before[1];
    wrong.list[0] = UINT64_MAX;
    refuse_begin("a root that leads out", &wrong, handles, 2, 17);
    wrong = before[0];
    wrong.word_count--;
    refuse_begin("a region that isn't whole", &wrong, handles, 2, 4);
}

static void refuse_held_handles(void) {
    pcompact_handle handles[4] = {{false, NULL}};
    check(begin(&before[0], handles, 3).number == 0, "a begin of three", 3);
    refuse_begin("a begin over held handles", &before[0], handles, 3, 12);
    refuse_begin("a begin over one held handle", &before[1], handles + 2, 2, 12);
    check(pcompact_work_all(&handles[1]) == PCOMPACT_SETTLED, "work after a begin that is refused", 1);
    end_well(0, handles, 3);
    refuse_end("a second end", handles, 3);
}

static void refuse_ends(void) {
    pcompact_handle handles[5] = {{false, NULL}};
    check(begin(&before[0], handles, 2).number == 0 && begin(&before[1], handles + 2, 2).number == 0, "two begins", 2);
    refuse_end("an end of two sessions", handles, 4);
    refuse_end("an end of handles of two sessions", handles + 1, 2);
    refuse_end("an end of one of two handles", handles, 1);
    refuse_end("an end of one handle too many", handles + 2, 3);
    end_well(0, handles, 2);
    end_well(1, handles + 2, 2);
    lose_end("an end with fewer words", before[0].word_count - 1, before[0].list_count);
    lose_end("an end with a longer list", before[0].word_count, before[0].list_count + 1);
}

/* A begin of which this many allocations succeed. Whether one was refused. */
static bool begin_with(int kind, long allocations) {
    pcompact_handle handles[3] = {{false, NULL}};
    requests_left = allocations;
    uint32_t fault = begin(&before[kind], handles, 3).number;
    requests_left = -1;
    if (fault == 0) {
        found.heap = before[kind];
        check(end(&found, handles, 3) == 0, "an end", allocations);
        return false;
    }
    check(fault == 11 && are_free(handles, 3), "a begin without memory", allocations);
    return true;
}

/* An end of which this many allocations succeed. */
static bool end_with(int kind, long allocations) {
    pcompact_handle handles[3] = {{false, NULL}};
    found.heap = before[kind];
    if (!check(begin(&before[kind], handles, 3).number == 0, "a begin", allocations)) return false;
    requests_left = allocations;
    uint32_t fault = end(&found, handles, 3);
    requests_left = -1;
    check(are_free(handles, 3), "free handles", allocations);
    if (fault == 0) return false;
    check(fault == 11 && are_same(&found.heap, &before[kind]), "an end without memory", allocations);
    return true;
}

static void refuse_memory(const char *what, bool (*call)(int, long)) {
    for (int kind = 0; kind < 2; kind++) {
        long allocations = 0;
        long held = blocks_held;
        while (call(kind, allocations)) {
            check(blocks_held == held, "a block is left", allocations);
            allocations++;
        }
        check(blocks_held == held && allocations > 0, "a block is left at the end", allocations);
        printf("%s: %ld allocations, each refused in turn\n", what, allocations);
    }
}

int main(void) {
    static const size_t workers[] = {1, 2, 4, 16};
    make_heaps(WORDS, CELLS);
    for (int kind = 0; kind < 2; kind++) {
        for (size_t i = 0; i < sizeof workers / sizeof *workers; i++) {
            collect_by_threads(kind, workers[i], work_all, work_all);
            collect_by_threads(kind, workers[i], work_in_turns, work_in_turns);
            collect_by_threads(kind, workers[i], work_yielding, work_yielding);
            collect_by_threads(kind, workers[i], stay_idle, work_in_turns);
            collect_in_turns(kind, workers[i]);
        }
        collect_in_turns(kind, MOST);
    }
    make_heaps(LEAST_WORDS, LEAST_CELLS);
    refuse_handles_of_none();
    refuse_held_handles();
    refuse_ends();
    refuse_memory("begin", begin_with);
    refuse_memory("end", end_with);
    check(blocks_held == 0, "a block is left in all", (size_t)blocks_held);
    printf("%d passed, %d failed\n", passed, failed);
    return failed != 0;
}
