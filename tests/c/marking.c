/* Markings by layouts, with any numbers that the rules allow and with those of hosts: each must mark just what a plain model reaches,
 * and the heap must become what the model makes of it, from the redirected references to the last word.
 *
 * usage: marking [HEAPS [SEED]] */
#include "coded.h"
#include "refusing_heap.h"
#include <pthread.h>
#include <sched.h>
#include <stdio.h>
#include <stdlib.h>
#include <string.h>

enum { MOST_ROOTS = 200, THREADS = 4, MOST_RANGES = 16, WEAK = 2 * MOST_WORDS };

/* The heap, and the same as the model redirects it. */
static coded_heap it;
static uint64_t model_block[MOST_WORDS + 2 * GUARD];
static wanted to;

static session s;
static uint64_t roots[MOST_ROOTS], *root_slots[MOST_ROOTS];
static size_t root_count, case_number;

/* What takes the place of what leads to a dead word. */
static uint64_t dead;

static void make_case(void) {
    static const size_t counts[] = {1, 7, 8, 9, 63, 64, 65, 100, 129};
    uint32_t log = 3 + (uint32_t)below(below(4) > 0 ? 3 : 8);
    pcompact_settings settings = {log, below(3) > 0 ? 0 : below(64)};
    size_t count = below(8) == 0 ? 1 + below(MOST_WORDS) : below(2) > 0 ? counts[below(9)] : 1 + below(300);
    make_coded_heap(&it, count, below(4) > 0 ? GUARD : 0, below(2) > 0 ? ANY : (enum layouts)below(LAYOUTS), settings);
    dead = below(2) > 0 ? any_word() : word_by(&it.layout, below(count));
    root_count = below(4) > 0 ? below(6) : below(MOST_ROOTS + 1);
    for (size_t i = 0; i < root_count; i++) {
        roots[i] = i == 0 || below(root_count) < 4 ? any_value(&it) : any_stray(&it);
        root_slots[i] = &roots[i];
    }
    s = no_session;
}

/* Whether the handle tells of each address, and of some outside, whether its object is reached. */
static bool tells_reached(void) {
    static const uint64_t outside[] = {0, 1, 63, 64, 1 << 20};
    for (uint64_t a = 0; a < it.heap.word_count; a++) {
        if (pcompact_is_reached(&s.slide.plan, a) != it.is_reached[a]) return false;
    }
    for (size_t i = 0; i < 5; i++) {
        if (pcompact_is_reached(&s.slide.plan, it.heap.word_count + outside[i])) return false;
    }
    return !pcompact_is_reached(&s.slide.plan, UINT64_MAX);
}

/* Marks what these roots reach, by values of which there are just so many, or by pointers. */
static pcompact_fault mark(size_t from, size_t count) {
    const heap *in = &it.heap;
    if (below(2) == 0) return pcompact_mark_each(&s.slide.plan, in->words, in->word_count, &it.layout, root_slots + from, count);
    uint64_t *batch = malloc(count * sizeof *batch + 1);
    if (!batch) exit(2);
    memcpy(batch, roots + from, count * sizeof *batch);
    pcompact_fault fault = pcompact_mark(&s.slide.plan, in->words, in->word_count, &it.layout, batch, count);
    free(batch);
    return fault;
}

/* Marks what the roots reach, in batches, without memory. */
static void mark_in_batches(void) {
    size_t from = 0;
    long held = blocks_held;
    requests_left = 0;
    do {
        size_t count = below(3) == 0 ? root_count - from : below(root_count - from + 1);
        pcompact_fault fault = mark(from, count);
        check(fault.number == 0 && fault.field == 0 && fault.place == 0, "a marking", case_number);
        reach(&it, roots + from, count);
        check(tells_reached(), "what a batch reaches", case_number);
        from += count;
    } while (from < root_count);
    requests_left = -1;
    check(blocks_held == held, "no memory for a marking", case_number);
}

/* A word once all is redirected. */
static uint64_t redirected(uint64_t word) {
    uint64_t at = target_by(&it.layout, it.heap.word_count, word);
    return at == UINT64_MAX ? word : to.to[at] == UINT64_MAX ? dead : word_by(&it.layout, to.to[at]);
}

/* Some references may change once their object is marked, and then lead anywhere. */
static void change_references(void) {
    for (size_t i = 0; i < it.heap.live_count; i++) {
        uint64_t *object = it.heap.words + it.heap.live[i], count = references_by(&it.layout, object[0]);
        if (count > 0 && below(3) == 0) object[1 + below(count)] = word_by(&it.layout, below(it.heap.word_count));
    }
}

/* Finds where the model takes each word, and what it makes of all. */
static void want_all(bool clears) {
    heap model = it.heap;
    want(&it.heap, clears, &to);
    memcpy(model_block, it.heap.block, 8 * it.heap.block_count);
    model.block = model_block;
    model.words = model_block + (it.heap.words - it.heap.block);
    for (size_t i = 0; i < model.live_count; i++) {
        uint64_t *object = model.words + model.live[i], count = references_by(&it.layout, object[0]);
        for (uint64_t q = 1; q <= count; q++) object[q] = redirected(object[q]);
    }
    want(&model, clears, &to);
}

/* Words of the heap from an object up to another, or from the first one or up to the last. */
static uint64_t cuts[MOST_RANGES + 1];
static size_t range_count;

static void cut_ranges(void) {
    const heap *in = &it.heap;
    range_count = 1;
    cuts[0] = 0;
    for (size_t i = 0; i < in->live_count && range_count < MOST_RANGES; i++) {
        if (in->live[i] > 0 && below(1 + in->live_count / 8) == 0) cuts[range_count++] = in->live[i];
    }
    cuts[range_count] = in->word_count;
}

/* The handles of the threads, of which the first has the slide's plan. */
static pcompact_handle shares[THREADS];

/* Redirects each range from this one on, of as many as there are threads. */
static bool redirect_ranges(pcompact_handle *plan, size_t from, size_t threads) {
    bool is_done = true;
    for (size_t i = from; i < range_count; i += threads) {
        pcompact_objects objects = {cuts[i], it.heap.word_count, dead};
        uint64_t *words = it.heap.words + cuts[i], count = cuts[i + 1] - cuts[i];
        is_done &= pcompact_redirect_objects(plan, words, count, &it.layout, objects).number == 0;
    }
    return is_done;
}

static void *redirect_part(void *thread) {
    size_t i = (uintptr_t)thread;
    return redirect_ranges(i == 0 ? &s.slide.plan : &shares[i], i, THREADS) ? NULL : thread;
}

static void by_threads(void *(*part)(void *), const char *what) {
    pthread_t threads[THREADS];
    for (uintptr_t i = 0; i < THREADS; i++) {
        if (pthread_create(&threads[i], NULL, part, (void *)i) != 0) exit(2);
    }
    for (size_t i = 0; i < THREADS; i++) {
        void *how;
        pthread_join(threads[i], &how);
        check(how == NULL, what, case_number);
    }
}

static void redirect_all(bool has_threads) {
    cut_ranges();
    if (has_threads) {
        for (size_t i = 1; i < THREADS; i++) check(pcompact_share_plan(&s.slide.plan, &shares[i]).number == 0, "a share", case_number);
    }
    requests_left = 0;
    if (has_threads) by_threads(redirect_part, "a redirection by threads");
    else check(redirect_ranges(&s.slide.plan, 0, 1), "a redirection", case_number);
    requests_left = -1;
    for (size_t i = 1; i < THREADS; i++) check(pcompact_forget(&shares[i]) == 0, "a share is forgotten", case_number);
}

/* Redirects roots, and weak slots to each word of the heap and to none, by the same numbers. */
static void redirect_slots(void) {
    static uint64_t weak[WEAK], wanted_weak[WEAK], wanted_roots[MOST_ROOTS];
    size_t count = 2 * it.heap.word_count;
    pcompact_slot_coding coding = pcompact_slots_by(&it.layout, it.heap.word_count, dead);
    for (size_t i = 0; i < count; i++) {
        weak[i] = i % 2 == 0 ? word_by(&it.layout, i / 2) : any_stray(&it);
        wanted_weak[i] = redirected(weak[i]);
    }
    for (size_t i = 0; i < root_count; i++) wanted_roots[i] = redirected(roots[i]);
    uint32_t how = case_number % 2 == 0 ? pcompact_redirect(&s.slide.plan, roots, root_count, coding)
                                        : pcompact_redirect_each(&s.slide.plan, root_slots, root_count, coding);
    how |= pcompact_redirect(&s.slide.plan, weak, count, coding);
    check(how == PCOMPACT_SETTLED, "a redirection of slots", case_number);
    check(memcmp(roots, wanted_roots, root_count * sizeof *roots) == 0, "the roots", case_number);
    check(memcmp(weak, wanted_weak, count * sizeof *weak) == 0, "weak slots", case_number);
}

static void *work(void *worker) {
    uint32_t how;
    pcompact_handle *handle = &s.handles[(uintptr_t)worker];
    while ((how = pcompact_work(handle, 3)) == PCOMPACT_TURNS_USED || how == PCOMPACT_NONE_READY) sched_yield();
    return how == PCOMPACT_SETTLED ? NULL : worker;
}

/* The graphs before and after: which object there is the twin of which here, plus 1, and those whose words aren't compared yet. */
static uint64_t before[MOST_WORDS], twins[MOST_WORDS], backs[MOST_WORDS], waiting[MOST_WORDS];
static size_t waiting_count;

/* Whether a word leads to the twin of what another led to, or is the same where that led nowhere. */
static bool is_twin(uint64_t old, uint64_t now) {
    uint64_t from = target_by(&it.layout, it.heap.word_count, old), at = target_by(&it.layout, it.heap.word_count, now);
    if (from == UINT64_MAX || at == UINT64_MAX) return old == now;
    if (twins[from] == 0 && backs[at] == 0) {
        twins[from] = at + 1;
        backs[at] = from + 1;
        waiting[waiting_count++] = from;
    }
    return twins[from] == at + 1 && backs[at] == from + 1;
}

static bool is_same_object(uint64_t at) {
    const uint64_t *old = before + at, *now = it.heap.words + twins[at] - 1;
    uint64_t size = size_by(&it.layout, old[0]), references = references_by(&it.layout, old[0]);
    bool is_same = old[0] == now[0];
    for (uint64_t q = 1; q < size; q++) is_same &= q <= references ? is_twin(old[q], now[q]) : old[q] == now[q];
    return is_same;
}

/* Whether what the roots reach is what they reached, whatever the model says of places. */
static bool is_same_graph(const uint64_t *old_roots) {
    bool is_same = true;
    memset(twins, 0, sizeof twins);
    memset(backs, 0, sizeof backs);
    waiting_count = 0;
    for (size_t i = 0; i < root_count; i++) is_same &= is_twin(old_roots[i], roots[i]);
    while (waiting_count > 0) is_same &= is_same_object(waiting[--waiting_count]);
    return is_same;
}

static void slide(size_t workers, bool clears) {
    check(begin(&s, workers) == 0, "a begin", case_number);
    if (workers == THREADS) by_threads(work, "a worker");
    end_well(&it.heap, &s, workers, clears, &to, case_number);
}

static void try_case(void) {
    static uint64_t old_roots[MOST_ROOTS];
    bool clears = below(2) > 0, has_threads = below(4) == 0, changes = below(3) == 0;
    make_case();
    const heap *in = &it.heap;
    check(pcompact_check_layout(&it.layout, in->word_count).number == 0, "a layout", case_number);
    if (!check(pcompact_begin_marking(in->word_count, &s.slide.plan).number == 0, "a begin of a marking", case_number)) return;
    check(tells_reached(), "nothing is reached at first", case_number);
    mark_in_batches();
    memcpy(before, in->words, 8 * in->word_count);
    memcpy(old_roots, roots, sizeof roots);
    pcompact_fault fault = pcompact_plan_marked(it.heap.words, in->word_count, &it.layout, in->settings, &s.slide);
    if (!check(fault.number == 0 && is_planned(&s, in), "a plan", case_number)) return;
    check(memcmp(before, in->words, 8 * in->word_count) == 0, "a marking and a plan write nothing", case_number);
    if (changes) change_references();
    want_all(clears);
    check(leads_to(&s.slide.plan, in, to.to), "where words go", case_number);
    check(!pcompact_is_reached(&s.slide.plan, in->live_count > 0 ? in->live[0] : 0), "a plan has no marking", case_number);
    redirect_all(has_threads);
    redirect_slots();
    slide(has_threads || below(4) == 0 ? THREADS : 1, clears);
    check(changes || is_same_graph(old_roots), "the graph", case_number);
    check(blocks_held == 0, "no block is left", case_number);
    free(it.heap.block);
}

int main(int argc, char **argv) {
    size_t heaps = argc > 1 ? strtoul(argv[1], NULL, 10) : 2000, live = 0, dead_objects = 0;
    if (argc > 2) take_seed(strtoul(argv[2], NULL, 10));
    for (case_number = 0; case_number < heaps; case_number++) {
        try_case();
        live += it.heap.live_count;
        dead_objects += it.object_count - it.heap.live_count;
    }
    check(heaps < 50 || (live > heaps && dead_objects > heaps), "objects of both kinds", live);
    printf("%zu heaps with %zu live and %zu dead objects\n", heaps, live, dead_objects);
    return end_counts();
}
