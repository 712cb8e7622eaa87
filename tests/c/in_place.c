/* Collections of words in place, by one call and by several threads: each must leave what the call that copies leaves. Then calls
 * that are refused, after which all is as it was, and each allocation of a begin and of an end refused in turn.
 *
 * usage: in_place */
#include "pcompact.h"
#include "refusing_heap.h"
#include <pthread.h>
#include <stdbool.h>
#include <stdio.h>
#include <stdlib.h>
#include <string.h>

enum { REGION_LOG = 5, SIZE = 1 << REGION_LOG, CELL = 5, CELLS = 13000, WORDS = 1 << 16, LEAST_WORDS = 1 << 9, LEAST_CELLS = 100,
       MOST = 64, GUARD = 3, MOST_REGIONS = 1 << 20, HOSTS = 4, HOST_ROUNDS = 50 };

static int passed, failed;

static bool check(bool holds, const char *what, size_t number) {
    passed += holds;
    failed += !holds;
    if (!holds) printf("failed: %s (%zu)\n", what, number);
    return holds;
}

/* A heap with its live addresses or roots, and words of the host around both. */
typedef struct heap {
    uint64_t low[GUARD], words[WORDS], middle[GUARD], list[CELLS], high[GUARD];
    size_t word_count, list_count;
    bool is_rooted;
} heap;

static const pcompact_settings settings = {REGION_LOG, 20};

/* Cells of which some live, each with a reference to a later cell that lives and one to an earlier cell. */
static void make_heap(heap *it, size_t word_count, size_t cells, bool is_rooted) {
    memset(it, 0, sizeof *it);
    for (size_t i = 0; i < GUARD; i++) it->low[i] = it->middle[i] = it->high[i] = 900 + i;
    it->word_count = word_count;
    it->is_rooted = is_rooted;
    for (size_t cell = 0; cell < cells; cell++) {
        uint64_t *words = it->words + cell * CELL;
        words[0] = UINT64_C(1) << 56 | UINT64_C(2) << 32 | CELL;
        if (cell % 3 == 1) {
            words[1] = cell + 3 < cells ? (cell + 3) * CELL + 1 : 0;
            words[2] = CELL + 1;
        }
        words[3] = cell;
        words[4] = ~cell;
        if (is_rooted ? cell % 1000 == 1 : cell % 3 == 1) it->list[it->list_count++] = cell * CELL + is_rooted;
    }
}

static uint32_t collect(heap *it, pcompact_answer *answer) {
    return (it->is_rooted ? pcompact_collect_rooted : pcompact_collect)(it->words, it->word_count, it->list, it->list_count,
                                                                        settings, answer);
}

static uint32_t collect_in_place(heap *it, pcompact_answer *answer) {
    return (it->is_rooted ? pcompact_collect_in_place_rooted : pcompact_collect_in_place)(
        it->words, it->word_count, it->list, it->list_count, settings, answer);
}

/* A collection by threads: its handles, zero but for those of a begin, and its regions. */
typedef struct session {
    pcompact_handle handles[MOST + 1];
    pcompact_regions regions;
} session;

static const session no_session;

static uint32_t begin(heap *it, session *s, size_t workers) {
    return (it->is_rooted ? pcompact_begin_in_place_rooted : pcompact_begin_in_place)(
        it->words, it->word_count, it->list, it->list_count, settings, s->handles, workers, &s->regions).number;
}

static uint32_t end(heap *it, session *s, size_t workers, pcompact_answer *answer) {
    return pcompact_end_in_place(s->handles, workers, &s->regions, it->list, it->list_count, answer);
}

/* What lies between the fields of a struct doesn't count. */
static bool is_same(const heap *one, const heap *other) {
    return memcmp(one, other, offsetof(heap, is_rooted)) == 0;
}

static size_t held_handles(const session *s) {
    size_t held = 0;
    for (size_t i = 0; i < MOST; i++) held += s->handles[i].is_held;
    return held;
}

static bool is_over(const session *s) {
    return held_handles(s) == 0 && !s->regions.at && s->regions.count == 0;
}

static bool is_same_session(const session *one, const session *other) {
    for (size_t i = 0; i < MOST; i++) {
        if (one->handles[i].is_held != other->handles[i].is_held) return false;
    }
    return one->regions.at == other->regions.at && one->regions.count == other->regions.count;
}

static bool has_figures(const pcompact_answer *one, const pcompact_answer *other) {
    return one->fault.number == 0 && one->prefix_end == other->prefix_end && one->new_top == other->new_top
        && one->filled_regions == other->filled_regions;
}

/* The heaps of both kinds, and what the call that copies makes of them; those at work. */
static heap before[2], wanted[2], found, second, same;
static pcompact_answer answers[2];

static void make_heaps(size_t word_count, size_t cells) {
    for (int kind = 0; kind < 2; kind++) {
        make_heap(&before[kind], word_count, cells, kind == 1);
        wanted[kind] = before[kind];
        check(collect(&wanted[kind], &answers[kind]) == 0, "a collection by copy", (size_t)kind);
        check(answers[kind].filled_regions > 2, "a heap with regions to fill", (size_t)kind);
    }
}

static void collect_at_once(int kind) {
    pcompact_answer answer;
    found = before[kind];
    check(collect_in_place(&found, &answer) == 0 && has_figures(&answer, &answers[kind]), "one call in place", (size_t)kind);
    check(is_same(&found, &wanted[kind]), "the heap of the call that copies", (size_t)kind);
}

static void *work_all(void *handle) {
    return (void *)(uintptr_t)pcompact_work_all(handle);
}

/* The first worker doesn't work: the end does what is left. */
static void *stay_idle(void *handle) {
    (void)handle;
    return (void *)(uintptr_t)PCOMPACT_SETTLED;
}

static void end_well(int kind, heap *it, session *s, size_t workers) {
    pcompact_answer answer;
    check(end(it, s, workers, &answer) == 0 && has_figures(&answer, &answers[kind]), "an end", workers);
    check(is_same(it, &wanted[kind]), "the heap of the call that copies, by threads", workers);
    check(is_over(s), "free handles and no regions", workers);
}

static void collect_by_threads(int kind, size_t workers, void *(*first)(void *)) {
    session s = no_session;
    pthread_t threads[MOST];
    found = before[kind];
    if (!check(begin(&found, &s, workers) == 0, "a begin", workers)) return;
    check(held_handles(&s) == workers && s.regions.count == WORDS / SIZE, "what a begin holds", workers);
    for (size_t i = 0; i < workers; i++) {
        if (pthread_create(&threads[i], NULL, i == 0 ? first : work_all, &s.handles[i]) != 0) exit(2);
    }
    for (size_t i = 0; i < workers; i++) {
        void *how;
        pthread_join(threads[i], &how);
        check((uintptr_t)how == PCOMPACT_SETTLED, "a worker's end", i);
    }
    end_well(kind, &found, &s, workers);
}

/* Collects a heap of its own over and over. Returns how often the result was another than that of the call that copies. */
static void *collect_own(void *kind) {
    size_t wrong = 0, k = (size_t)(uintptr_t)kind;
    heap *it = malloc(sizeof *it);
    if (!it) exit(2);
    for (int round = 0; round < HOST_ROUNDS; round++) {
        pcompact_answer answer;
        *it = before[k];
        wrong += collect_in_place(it, &answer) != 0 || !has_figures(&answer, &answers[k]) || !is_same(it, &wanted[k]);
    }
    free(it);
    return (void *)(uintptr_t)wrong;
}

static void collect_beside(void) {
    pthread_t threads[HOSTS];
    for (size_t i = 0; i < HOSTS; i++) {
        if (pthread_create(&threads[i], NULL, collect_own, (void *)(uintptr_t)(i % 2)) != 0) exit(2);
    }
    for (size_t i = 0; i < HOSTS; i++) {
        void *wrong;
        pthread_join(threads[i], &wrong);
        check(wrong == NULL, "heaps of several hosts", i);
    }
}

/* A begin that returns this fault, and leaves handles, regions, words and list. */
static void refuse_begin(const char *what, heap *it, session *s, size_t workers, uint32_t fault) {
    session held = *s;
    same = *it;
    check(begin(it, s, workers) == fault, what, fault);
    check(is_same(it, &same) && is_same_session(s, &held), what, workers);
}

/* An end that returns this fault, and leaves them too. */
static void refuse_end(const char *what, heap *it, session *s, size_t workers, uint32_t fault) {
    pcompact_answer answer;
    session held = *s;
    memset(&answer, 0x5a, sizeof answer);
    same = *it;
    check(end(it, s, workers, &answer) == fault && answer.fault.number == fault, what, fault);
    check(answer.fault.field == 0 && answer.fault.place == 0 && answer.prefix_end == 0, what, workers);
    check(answer.new_top == 0 && answer.filled_regions == 0 && is_same(it, &same) && is_same_session(s, &held), what, workers);
}

static void refuse_begins(int kind) {
    session s = no_session;
    found = before[kind];
    refuse_begin("a begin of no handles", &found, &s, 0, 12);
    refuse_begin("a begin of 65 handles", &found, &s, MOST + 1, 12);
    found.word_count--;
    refuse_begin("a region that isn't whole", &found, &s, 2, 4);
    found.word_count = 0;
    refuse_begin("no word", &found, &s, 2, 4);
    found.word_count = SIZE_MAX / SIZE * SIZE;
    refuse_begin("more words than there are", &found, &s, 2, 4);
    found = before[kind];
    found.list_count = SIZE_MAX / 8;
    refuse_begin("a list that is longer than the words", &found, &s, 2, 4);
    found = before[kind];
    found.list[kind == 0] = kind == 0 ? found.list[0] : UINT64_MAX;
    refuse_begin("a wrong number", &found, &s, 2, kind == 0 ? 6 : 17);
    found = before[kind];
    found.words[CELL] = 0;
    refuse_begin("a header that is none", &found, &s, 2, 7);
}

static void refuse_ends(void) {
    session s = no_session, other = no_session, mixed;
    found = before[0];
    second = before[1];
    refuse_end("an end of no begin", &found, &s, 3, 12);
    check(begin(&found, &s, 3) == 0 && begin(&second, &other, 2) == 0, "two begins", 2);
    refuse_begin("a begin over held handles and regions", &found, &s, 3, 12);
    mixed = s;
    mixed.regions = no_session.regions;
    refuse_begin("a begin over held handles", &found, &mixed, 3, 12);
    refuse_end("an end without regions", &found, &mixed, 3, 12);
    mixed = no_session;
    mixed.regions = s.regions;
    refuse_begin("a begin over regions", &found, &mixed, 3, 12);
    refuse_end("an end without handles", &found, &mixed, 3, 12);
    refuse_end("an end of two of three handles", &found, &s, 2, 12);
    refuse_end("an end of one handle too many", &found, &s, 4, 12);
    found.list_count++;
    refuse_end("an end with a longer list", &found, &s, 3, 4);
    found.list_count--;
    check(pcompact_work_all(&s.handles[1]) == PCOMPACT_SETTLED, "work after ends that are refused", 1);
    end_well(0, &found, &s, 3);
    end_well(1, &second, &other, 2);
    refuse_end("a second end", &found, &s, 3, 12);
}

/* With roots a heap has at most 1048576 regions, and a region at most 1048576 words. More are refused as by the call that copies. */
static void refuse_regions(void) {
    const size_t most = 8 * (size_t)MOST_REGIONS;
    uint64_t *words = calloc(most + 8, sizeof *words), none;
    const pcompact_settings least = {3, 0}, large = {21, 0};
    pcompact_answer answer;
    if (!words) exit(2);
    check(pcompact_collect_in_place_rooted(words, most, &none, 0, least, &answer) == 0, "as many regions as there may be", 0);
    check(pcompact_collect_rooted(words, most + 8, &none, 0, least, &answer) == 4, "one region too many, by copy", 4);
    check(pcompact_collect_in_place_rooted(words, most + 8, &none, 0, least, &answer) == 4, "one region too many", 4);
    check(pcompact_collect_in_place(words, most + 8, &none, 0, least, &answer) == 4, "one region too many, with a live list", 4);
    check(pcompact_collect_rooted(words, most, &none, 0, large, &answer) == 3, "regions that are too large, by copy", 3);
    check(pcompact_collect_in_place_rooted(words, most, &none, 0, large, &answer) == 3, "regions that are too large", 3);
    free(words);
}

/* With a live list a heap has at most 4194304 words. A larger one is taken with a root for each object. */
static void refuse_words(void) {
    const size_t most = (size_t)1 << 22;
    const pcompact_settings regions = {9, 0};
    uint64_t *words = calloc(2 * most, sizeof *words), live = 8, root = 9;
    pcompact_answer answer;
    if (!words) exit(2);
    words[8] = (UINT64_C(1) << 56) + 2;
    words[9] = 77;
    check(pcompact_collect_in_place(words, 2 * most, &live, 1, regions, &answer) == 4 && live == 8, "too many words", 4);
    check(pcompact_collect_in_place_rooted(words, 2 * most, &root, 1, regions, &answer) == 0, "as many with a root", 0);
    check(root == 1 && words[1] == 77 && words[9] == 0, "where it went", (size_t)root);
    live = 0;
    check(pcompact_collect_in_place(words, most, &live, 1, regions, &answer) == 0, "as many words as there may be", 0);
    free(words);
}

/* One reference more than an object may have makes a header of another kind, where it is a sum. */
static void refuse_references(void) {
    uint64_t words[8] = {(UINT64_C(1) << 56) + (UINT64_C(1) << 24 << 32) + 8}, live = 0, root = 1;
    const pcompact_settings regions = {3, 0};
    pcompact_answer answer;
    check(pcompact_collect_in_place(words, 8, &live, 1, regions, &answer) == 7, "too many references", 7);
    check(pcompact_collect_in_place_rooted(words, 8, &root, 1, regions, &answer) == 7, "too many references, with a root", 7);
}

/* Each word is an object that lives, so the list is as long as the words. */
static void collect_full(bool is_rooted) {
    found = before[is_rooted];
    found.word_count = found.list_count = SIZE;
    for (size_t a = 0; a < SIZE; a++) {
        found.words[a] = UINT64_C(1) << 56 | 1;
        found.list[a] = a + is_rooted;
    }
    same = found;
    pcompact_answer answer;
    session s = no_session;
    check(collect_in_place(&found, &answer) == 0 && answer.new_top == SIZE, "a full heap", is_rooted);
    check(begin(&found, &s, 2) == 0 && end(&found, &s, 2, &answer) == 0 && is_over(&s), "a full heap by threads", is_rooted);
    check(is_same(&found, &same), "what is left of a full heap", is_rooted);
}

/* A begin of which this many allocations succeed. Whether one was refused. */
static bool begin_with(int kind, long allocations) {
    session s = no_session;
    found = before[kind];
    requests_left = allocations;
    uint32_t fault = begin(&found, &s, 3);
    requests_left = -1;
    if (fault == 0) {
        end_well(kind, &found, &s, 3);
        return false;
    }
    check(fault == 11 && is_over(&s) && is_same(&found, &before[kind]), "a begin without memory", (size_t)allocations);
    return true;
}

/* An end of which this many allocations succeed, and then another. */
static bool end_with(int kind, long allocations) {
    session s = no_session;
    pcompact_answer answer;
    found = before[kind];
    if (!check(begin(&found, &s, 3) == 0, "a begin", (size_t)allocations)) return false;
    requests_left = allocations;
    uint32_t fault = end(&found, &s, 3, &answer);
    requests_left = -1;
    if (fault == 0) {
        check(is_same(&found, &wanted[kind]), "an end with memory", (size_t)allocations);
        return false;
    }
    check(fault == 11 && held_handles(&s) == 3, "an end without memory", (size_t)allocations);
    end_well(kind, &found, &s, 3);
    return true;
}

static void refuse_memory(const char *what, bool (*call)(int, long)) {
    for (int kind = 0; kind < 2; kind++) {
        long allocations = 0;
        while (call(kind, allocations)) {
            check(blocks_held == 0, "a block is left", (size_t)allocations);
            allocations++;
        }
        check(blocks_held == 0 && allocations > 0, "a block is left at the end", (size_t)allocations);
        printf("%s: %ld allocations, each refused in turn\n", what, allocations);
    }
}

int main(void) {
    static const size_t workers[] = {1, 2, 4, 16, 64};
    make_heaps(WORDS, CELLS);
    for (int kind = 0; kind < 2; kind++) {
        collect_at_once(kind);
        for (size_t i = 0; i < sizeof workers / sizeof *workers; i++) {
            collect_by_threads(kind, workers[i], work_all);
            collect_by_threads(kind, workers[i], stay_idle);
        }
    }
    collect_beside();
    make_heaps(LEAST_WORDS, LEAST_CELLS);
    refuse_begins(0);
    refuse_begins(1);
    refuse_ends();
    refuse_regions();
    refuse_words();
    refuse_references();
    collect_full(false);
    collect_full(true);
    check(blocks_held == 0, "a block is left in all", (size_t)blocks_held);
    refuse_memory("begin", begin_with);
    refuse_memory("end", end_with);
    printf("%d passed, %d failed\n", passed, failed);
    return failed != 0;
}
