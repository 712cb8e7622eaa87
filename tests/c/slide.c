/* Slides of opaque objects: each must leave what a plain model leaves, which moves one object after the other, and lead where it
 * leads. Then a host's own graph of objects, in one heap and in chunks.
 *
 * usage: slide [HEAPS [SEED]] */
#include "opaque.h"
#include "refusing_heap.h"
#include <pthread.h>
#include <sched.h>
#include <stdio.h>
#include <stdlib.h>
#include <string.h>

/* How workers work. */
enum how { ALL_AT_ONCE, FEW_AT_A_TIME, NOT_AT_ALL, HOWS };

static void *work_all(void *handle) {
    return (void *)(uintptr_t)pcompact_work_all(handle);
}

static void *work_in_turns(void *handle) {
    uint32_t how;
    while ((how = pcompact_work(handle, 3)) == PCOMPACT_TURNS_USED || how == PCOMPACT_NONE_READY) sched_yield();
    return (void *)(uintptr_t)how;
}

/* Lets a thread work by each of these handles. */
static void work_by_threads(pcompact_handle *handles, size_t workers, void *(*work)(void *)) {
    pthread_t threads[MOST_WORKERS];
    for (size_t i = 0; i < workers; i++) {
        if (pthread_create(&threads[i], NULL, work, &handles[i]) != 0) exit(2);
    }
    for (size_t i = 0; i < workers; i++) {
        void *how;
        pthread_join(threads[i], &how);
        check((uintptr_t)how == PCOMPACT_SETTLED, "a worker's end", i);
    }
}

static void work(session *s, size_t workers, enum how how) {
    if (how != NOT_AT_ALL) work_by_threads(s->handles, workers, how == ALL_AT_ONCE ? work_all : work_in_turns);
}

/* Whether a plan lists the objects of a heap. */
static bool lists(pcompact_handle *plan, const heap *it) {
    uint64_t at = pcompact_next_object(plan, 0);
    for (size_t i = 0; i < it->live_count; i++) {
        if (at != it->live[i] || pcompact_next_object(plan, at) != at) return false;
        at = pcompact_next_object(plan, at + 1);
    }
    return at == UINT64_MAX && pcompact_next_object(plan, UINT64_MAX) == UINT64_MAX;
}

/* Whether a plan finds the objects of a heap by each of their words, and none by any other. */
static bool finds(pcompact_handle *plan, const heap *it) {
    uint64_t at = 0;
    for (size_t i = 0; i < it->live_count; i++) {
        for (; at < it->live[i]; at++) if (pcompact_object_over(plan, at) != UINT64_MAX) return false;
        for (; at < it->live[i] + it->sizes[i]; at++) if (pcompact_object_over(plan, at) != it->live[i]) return false;
    }
    while (at < it->word_count && pcompact_object_over(plan, at) == UINT64_MAX) at++;
    return at == it->word_count && pcompact_object_over(plan, at) == UINT64_MAX && pcompact_object_over(plan, UINT64_MAX) == UINT64_MAX;
}

/* Slides a heap, and compares it with the model. */
static void slide(heap *it, session *s, size_t workers, enum how how, bool clears, size_t number) {
    static wanted to;
    want(it, clears, &to);
    if (!check(plan(it, s).number == 0 && is_planned(s, it), "a plan", number)) return;
    check(leads_to(&s->slide.plan, it, to.to), "where words go by a plan", number);
    check(lists(&s->slide.plan, it), "objects by a plan", number);
    check(finds(&s->slide.plan, it), "objects by their words", number);
    if (!check(begin(s, workers) == 0 && held_handles(s) == workers, "a begin", number)) return;
    check(pcompact_next_object(s->handles, 0) == UINT64_MAX, "no objects by a worker's handle", number);
    check(it->live_count == 0 || pcompact_object_over(s->handles, it->live[0]) == UINT64_MAX, "no object by a worker's handle", number);
    check(!s->slide.plan.is_held && leads_to(&s->handles[workers - 1], it, to.to), "where words go by a handle", number);
    work(s, workers, how);
    end_well(it, s, workers, clears, &to, number);
    check(blocks_held == 0, "no block is left", number);
}

static void slide_table(void) {
    static const uint32_t logs[] = {3, 5, 9};
    static const size_t workers[] = {1, 2, 4};
    static heap it;
    session s = no_session;
    size_t number = 0;
    for (size_t row = 0; row < 3 * 9 * KINDS; row++) {
        size_t size = (size_t)1 << logs[row % 3];
        size_t counts[9] = {1, size - 1, size, size + 1, 2 * size - 1, 2 * size, 2 * size + 1, 4 * size + 3, 5 * size - 2};
        for (size_t turn = 0; turn < 6; turn++, number++) {
            pcompact_settings settings = {logs[row % 3], turn == 5 ? 5 : 0};
            make_heap(&it, counts[row / 3 % 9], turn < 3 ? GUARD : 0, settings);
            add_objects(&it, (enum kind)(row / 27));
            slide(&it, &s, workers[turn % 3], (enum how)((row + turn / 3) % HOWS), (row + turn) % 2 == 1, number);
            free(it.block);
        }
    }
    for (size_t many = 16; many <= MOST_WORKERS; many *= 2, number++) {
        make_heap(&it, MOST_WORDS, GUARD, (pcompact_settings){3, 0});
        add_objects(&it, SCATTERED);
        slide(&it, &s, many, FEW_AT_A_TIME, true, number);
        free(it.block);
    }
    printf("%zu heaps of a table\n", number);
}

/* Sessions are used again and again, as a host does. */
static void slide_random(size_t heaps) {
    static heap it;
    static const size_t workers[] = {1, 2, 4, 1};
    session s = no_session;
    for (size_t number = 0; number < heaps; number++) {
        uint32_t log = below(4) > 0 ? 3 + (uint32_t)below(3) : 3 + (uint32_t)below(8);
        uint64_t allowance = below(3) > 0 ? 0 : below(4) > 0 ? below(64) : any_word();
        pcompact_settings settings = {log, allowance};
        make_heap(&it, 1 + below(below(4) > 0 ? 200 : MOST_WORDS), below(4) > 0 ? GUARD : 0, settings);
        add_objects(&it, below(10) == 0 ? OBJECTS_IN_A_ROW : SCATTERED);
        slide(&it, &s, workers[number % 4], (enum how)(number / 4 % HOWS), below(2) == 0, number);
        free(it.block);
    }
    printf("%zu random heaps\n", heaps);
}

/* An object of a host with a layout of its own: a name, two words that are null, numbers with a low bit, or pointers to any word
 * of a live object, and data. It has no header. */
enum { NAME, POINTERS, POINTER_COUNT = 2, DATA = POINTERS + POINTER_COUNT, DEAD = 77, CHUNKS = 3, THREADS = 2,
       MOST_CELLS = 300 };

typedef struct cell {
    size_t chunk, size;
    uint64_t at;
    bool is_live;
    struct { const struct cell *to; uint64_t word; } pointers[POINTER_COUNT];
} cell;

/* A heap in chunks that no object crosses: a slide for each. */
static struct chunk {
    heap heap;
    session session;
    pcompact_slot_coding coding;
} chunks[CHUNKS];

static cell cells[MOST_CELLS];
static size_t chunk_count, cell_count;

static uint64_t *words_of(const cell *it) {
    return chunks[it->chunk].heap.words + it->at;
}

static uint64_t name_of(const cell *it) {
    return UINT64_C(0x9e3779b97f4a7c15) * (uint64_t)(it - cells + 1);
}

static void make_cells(void) {
    cell_count = 0;
    for (size_t c = 0; c < chunk_count; c++) {
        heap *it = &chunks[c].heap;
        make_heap(it, 500 + below(200), GUARD, (pcompact_settings){3 + (uint32_t)c, c == 1 ? 60 : 0});
        chunks[c].session = no_session;
        chunks[c].coding = (pcompact_slot_coding){(uintptr_t)it->words, it->word_count, DEAD, 3};
        for (uint64_t at = below(5); at + DATA + 6 <= it->word_count && cell_count < MOST_CELLS;) {
            cell made = {.chunk = c, .size = DATA + below(7), .at = at, .is_live = below(2) == 0};
            if (made.is_live) add_object(it, at, made.size);
            cells[cell_count++] = made;
            at += made.size + below(3);
        }
    }
}

static void link_cells(void) {
    for (cell *it = cells; it < cells + cell_count; it++) {
        words_of(it)[NAME] = name_of(it);
        for (size_t f = 0; f < POINTER_COUNT; f++) {
            const cell *to = cells + below(cell_count);
            words_of(it)[POINTERS + f] = below(2) == 0 ? 0 : 2 * any_word() + 1;
            if (it->is_live && !to->is_live) continue;
            it->pointers[f].to = to;
            it->pointers[f].word = below(to->size);
            words_of(it)[POINTERS + f] = (uintptr_t)(words_of(to) + it->pointers[f].word);
        }
    }
}

/* Redirects a slot by the plan of the chunk to which it leads, if it leads to one. */
static void redirect(uint64_t *slot) {
    for (size_t c = 0; c < chunk_count; c++) {
        struct chunk *it = &chunks[c];
        if (*slot - it->coding.base >= 8 * it->heap.word_count) continue;
        uint32_t how = pcompact_redirect(&it->session.slide.plan, slot, 1, it->coding);
        check(how == PCOMPACT_SETTLED, "a redirection by a plan", c);
        return;
    }
}

/* Works by a thread's handle of each slide, one after the other, until all are settled. */
static void *work_on_chunks(void *thread) {
    size_t settled = 0, i = (size_t)(uintptr_t)thread;
    while (settled < chunk_count) {
        settled = 0;
        for (size_t c = 0; c < chunk_count; c++) settled += pcompact_work(&chunks[c].session.handles[i], 2) == PCOMPACT_SETTLED;
        sched_yield();
    }
    return NULL;
}

/* Whether a cell has what it had before, and leads where it led. */
static bool is_whole(const cell *it, const uint64_t *now, const uint64_t *before) {
    bool holds = now[NAME] == name_of(it) && memcmp(now + DATA, before + DATA, 8 * (it->size - DATA)) == 0;
    for (size_t f = 0; f < POINTER_COUNT; f++) {
        const cell *to = it->pointers[f].to;
        uint64_t slot = now[POINTERS + f], start = slot - 8 * it->pointers[f].word;
        holds &= to ? *(const uint64_t *)(uintptr_t)start == name_of(to) : slot == before[POINTERS + f];
    }
    return holds;
}

/* The host redirects the fields of its live objects by the plans, while the words are its own, and a weak table of a slot to each
 * object. Afterwards all leads where it led. */
static void slide_graph(size_t count) {
    static uint64_t before[MOST_CELLS][DATA + 7], weak[MOST_CELLS], places[MOST_CELLS];
    static wanted to[CHUNKS];
    pthread_t threads[THREADS];
    chunk_count = count;
    make_cells();
    link_cells();
    for (size_t c = 0; c < count; c++) check(plan(&chunks[c].heap, &chunks[c].session).number == 0, "a plan of a chunk", c);
    for (size_t i = 0; i < cell_count; i++) {
        cell *it = &cells[i];
        memcpy(before[i], words_of(it), 8 * it->size);
        places[i] = pcompact_new_address(&chunks[it->chunk].session.slide.plan, it->at);
        weak[i] = (uintptr_t)words_of(it);
        check(it->is_live == (places[i] != UINT64_MAX), "a cell lives", i);
    }
    for (size_t i = 0; i < cell_count; i++) {
        for (size_t f = 0; f < POINTER_COUNT && cells[i].is_live; f++) redirect(words_of(&cells[i]) + POINTERS + f);
        redirect(&weak[i]);
    }
    for (size_t c = 0; c < count; c++) {
        want(&chunks[c].heap, c == 0, &to[c]);
        check(begin(&chunks[c].session, THREADS) == 0, "a begin of a chunk", c);
    }
    for (size_t i = 0; i < THREADS; i++) {
        if (pthread_create(&threads[i], NULL, work_on_chunks, (void *)(uintptr_t)i) != 0) exit(2);
    }
    for (size_t i = 0; i < THREADS; i++) pthread_join(threads[i], NULL);
    for (size_t c = 0; c < count; c++) end_well(&chunks[c].heap, &chunks[c].session, THREADS, c == 0, &to[c], c);
    for (size_t i = 0; i < cell_count; i++) {
        if (!cells[i].is_live) {
            check(weak[i] == DEAD, "a weak slot to a dead cell", i);
            continue;
        }
        const uint64_t *now = chunks[cells[i].chunk].heap.words + places[i];
        check(weak[i] == (uintptr_t)now, "a weak slot", i);
        check(is_whole(&cells[i], now, before[i]), "a cell of the graph", i);
    }
    for (size_t c = 0; c < count; c++) free(chunks[c].heap.block);
}

/* Slots that lead right behind the heap: to words that the last region lacks, and farther. */
static void redirect_behind(void) {
    static heap it;
    session s = no_session;
    make_heap(&it, 21, GUARD, (pcompact_settings){3, 0});
    add_object(&it, 1, 20);
    uint64_t base = (uintptr_t)it.words, last = base + 8 * 20;
    uint64_t slots[6] = {base + 8, last, last + 8, last + 24, last + 32, base - 8};
    uint64_t wanted[6] = {base, last - 8, last + 8, last + 24, last + 32, base - 8};
    pcompact_slot_coding coding = {base, 21, DEAD, 3};
    check(plan(&it, &s).number == 0, "a plan", 0);
    check(pcompact_redirect(&s.slide.plan, slots, 6, coding) == PCOMPACT_SETTLED, "a redirection", 0);
    check(memcmp(slots, wanted, sizeof slots) == 0, "slots behind the heap", 0);
    check(pcompact_forget_slide(&s.slide) == 0, "a plan is forgotten", 0);
    free(it.block);
}

int main(int argc, char **argv) {
    if (argc > 2) take_seed(strtoul(argv[2], NULL, 10));
    slide_table();
    slide_random(argc > 1 ? strtoul(argv[1], NULL, 10) : 2000);
    for (size_t i = 0; i < 20; i++) slide_graph(i % 2 == 0 ? 1 : CHUNKS);
    redirect_behind();
    return end_counts();
}
