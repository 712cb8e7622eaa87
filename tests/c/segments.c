/* A heap in segments: each must slide as a plain model slides it, whatever lies between, and slots must lead where the model takes
 * what they lead to. Workers redirect and slide at once. Then what is refused, and each allocation in turn.
 *
 * usage: segments [HEAPS [SEED]] */
#include "opaque.h"
#include "refusing_heap.h"
#include <pthread.h>
#include <sched.h>
#include <stdio.h>
#include <stdlib.h>
#include <string.h>

enum { MOST_SEGMENTS = 6, MOST_THREADS = 4, MOST_SLOTS = MOST_SEGMENTS * (MOST_WORDS + 8), DEAD = 77,
       HANDLES = 16 * MOST_THREADS };

/* The segments' words and objects, by ascending addresses of their words, and what is wanted of each. */
static heap made[MOST_SEGMENTS], *parts[MOST_SEGMENTS];
static wanted to[MOST_SEGMENTS];

static pcompact_slide slides[MOST_SEGMENTS];
static pcompact_handle handles[HANDLES];
static pcompact_segment lists[MOST_SEGMENTS];
static pcompact_segments all;

static const pcompact_segments no_segments;

static int compare(const void *one, const void *other) {
    const heap *a = *(heap *const *)one, *b = *(heap *const *)other;
    return a->words < b->words ? -1 : a->words > b->words;
}

static void make_segments(size_t count, size_t workers, size_t most_words, uint64_t tag) {
    all = (pcompact_segments){slides, count, handles, workers, tag, DEAD};
    for (size_t i = 0; i < count; i++) {
        make_heap(&made[i], 1 + below(most_words), GUARD, (pcompact_settings){3 + (uint32_t)below(3), below(2) * below(64)});
        add_objects(&made[i], (enum kind)below(KINDS));
        made[i].settings = made[0].settings;
        parts[i] = &made[i];
    }
    qsort(parts, count, sizeof *parts, compare);
    for (size_t i = 0; i < count; i++) {
        heap *it = parts[i];
        lists[i] = (pcompact_segment){it->words, it->word_count, it->live, it->sizes, it->live_count};
        want(parts[i], true, &to[i]);
    }
}

static void free_segments(void) {
    for (size_t i = 0; i < all.segment_count; i++) free(made[i].block);
}

static bool is_nothing_held(void) {
    bool is_held = false;
    for (size_t i = 0; i < HANDLES; i++) is_held |= handles[i].is_held;
    for (size_t i = 0; i < MOST_SEGMENTS; i++) is_held |= slides[i].plan.is_held || slides[i].regions;
    return !is_held;
}

/* Slots that lead to each word of each segment, to some around it, and nowhere, and what they must become. */
static uint64_t slots[MOST_SLOTS], wanted_slots[MOST_SLOTS], *pointers[MOST_SLOTS];
static size_t slot_count;

static void add_slot(uint64_t slot, uint64_t becomes) {
    slots[slot_count] = slot;
    wanted_slots[slot_count++] = becomes;
}

static void swap(uint64_t *one, uint64_t *other) {
    uint64_t kept = *one;
    *one = *other;
    *other = kept;
}

/* Mixes the slots of segments in every second heap. */
static void mix_slots(void) {
    for (size_t i = below(2) ? slot_count : 0; i > 1; i--) {
        size_t other = below(i);
        swap(&slots[i - 1], &slots[other]);
        swap(&wanted_slots[i - 1], &wanted_slots[other]);
    }
}

static void make_slots(void) {
    slot_count = 0;
    for (size_t i = 0; i < all.segment_count; i++) {
        uint64_t base = (uintptr_t)parts[i]->words + all.tag;
        for (uint64_t a = 0; a < parts[i]->word_count; a++) {
            add_slot(base + 8 * a, to[i].to[a] == UINT64_MAX ? DEAD : base + 8 * to[i].to[a]);
        }
        uint64_t end = base + 8 * parts[i]->word_count, others[] = {base - 8, end, base + 1, end - 1, 0, any_word() | 1};
        for (size_t k = 0; k < 6; k++) add_slot(others[k], others[k]);
    }
    mix_slots();
}

/* Redirects slots that a worker gathers, and none of others. */
static uint32_t gather(size_t worker, size_t from, size_t end) {
    pcompact_batch batch = {.heap = &all, .worker = worker};
    uint64_t other = (uintptr_t)all.slides[0].words + all.tag, before = other;
    uint32_t how = PCOMPACT_SETTLED;
    for (size_t i = from; i < end; i += 5) {
        size_t count = end - i < 5 ? end - i : 5;
        how |= pcompact_gather(&batch, &slots[i], count, 0, 0) | pcompact_gather(&batch, &other, 1, 1, ~other & 1);
    }
    how |= pcompact_redirect_batch(&batch) | pcompact_redirect_batch(&batch);
    return other == before ? how : (uint32_t)PCOMPACT_NOT_HELD;
}

/* Each worker redirects its part of the slots: a third of them as they lie, a third by pointers, the last first, and a third that
 * it gathers. */
static void *redirect(void *worker) {
    size_t w = (size_t)worker, from = slot_count * w / all.worker_count, end = slot_count * (w + 1) / all.worker_count;
    size_t second = from + (end - from) / 3, third = from + (end - from) * 2 / 3;
    for (size_t i = second; i < third; i++) pointers[i] = &slots[second + third - 1 - i];
    uint32_t how = pcompact_redirect_segments(&all, w, slots + from, second - from);
    how |= pcompact_redirect_segments_each(&all, w, pointers + second, third - second);
    return (void *)(uintptr_t)(how | gather(w, third, end));
}

static void *work(void *worker) {
    uint32_t how = PCOMPACT_TURNS_USED;
    for (; how == PCOMPACT_TURNS_USED || how == PCOMPACT_NONE_READY; sched_yield()) {
        how = pcompact_work_segments(&all, (size_t)worker, 2);
    }
    return (void *)(uintptr_t)how;
}

static void by_threads(void *(*part)(void *), size_t number) {
    pthread_t threads[MOST_THREADS];
    for (size_t i = 0; i < all.worker_count; i++) {
        if (pthread_create(&threads[i], NULL, part, (void *)i) != 0) exit(2);
    }
    for (size_t i = 0; i < all.worker_count; i++) {
        void *how;
        pthread_join(threads[i], &how);
        check((uintptr_t)how == PCOMPACT_SETTLED, "a worker's part", number);
    }
}

static void check_slots(const char *what, size_t number) {
    check(memcmp(slots, wanted_slots, slot_count * sizeof *slots) == 0, what, number);
}

static void end_well_in_all(size_t number) {
    pcompact_answer answers[MOST_SEGMENTS];
    memset(answers, 0x5a, sizeof answers);
    check(pcompact_end_segments(&all, true, answers) == 0, "an end", number);
    for (size_t i = 0; i < all.segment_count; i++) {
        check(answers[i].fault.number == 0 && answers[i].new_top == to[i].new_top, "a new top", i);
        check(answers[i].prefix_end == to[i].prefix_end, "a prefix", i);
        check(memcmp(parts[i]->block, to[i].block, 8 * parts[i]->block_count) == 0, "the words of a segment", i);
    }
    check(is_nothing_held() && blocks_held == 0, "nothing is left", number);
}

static uint32_t plan_all(size_t *segment) {
    return pcompact_plan_segments(&all, lists, made[0].settings, segment).number;
}

static void slide_segments(size_t count, size_t number) {
    size_t segment;
    make_segments(count, 1 + below(MOST_THREADS), 400, below(2) * 3);
    make_slots();
    check(plan_all(&segment) == 0 && segment == count, "plans", number);
    check(pcompact_share_segments(&all).number == 0, "shares", number);
    by_threads(redirect, number);
    check_slots("slots that are redirected by plans", number);
    check(pcompact_begin_segments(&all).number == 0, "begins", number);
    make_slots();
    by_threads(redirect, number);
    check_slots("slots that are redirected after the begin", number);
    if (number % 3 != 0) by_threads(work, number);
    end_well_in_all(number);
    free_segments();
}

/* Whether nothing has changed but what a heap holds in memory. */
static void refused(const char *what, uint32_t fault, uint32_t wanted_fault) {
    check(fault == wanted_fault, what, fault);
    for (size_t i = 0; i < all.segment_count; i++) {
        bool is_same = true;
        for (size_t a = 0; a < GUARD; a++) is_same &= parts[i]->block[a] == to[i].block[a];
        check(is_same, what, i);
    }
}

static void refuse_calls(void) {
    size_t segment;
    uint64_t slot;
    pcompact_answer answers[MOST_SEGMENTS];
    make_segments(3, 2, 200, 0);
    slot = (uintptr_t)parts[1]->words;
    refused("shares without plans", pcompact_share_segments(&all).number, 12);
    check(pcompact_redirect_segments(&all, 0, &slot, 1) == PCOMPACT_SETTLED, "a redirection without a plan", 0);
    refused("begins without plans", pcompact_begin_segments(&all).number, 12);
    check(pcompact_end_segments(&all, false, answers) == 0, "ends of nothing", 0);
    check(pcompact_work_segments(&all, 0, 1) == PCOMPACT_NOT_HELD, "work without a begin", 0);
    lists[1].word_count = 0;
    refused("a segment without words", plan_all(&segment), 4);
    check(segment == 1 && is_nothing_held() && blocks_held == 0, "the segment with a fault", segment);
    lists[1].word_count = parts[1]->word_count;
    check(plan_all(&segment) == 0, "plans", 0);
    check(pcompact_redirect_segments(&all, 0, &slot, 1) == PCOMPACT_NOT_HELD, "a redirection without shares", 0);
    check(slot == (uintptr_t)parts[1]->words, "a slot without shares", 0);
    refused("second plans", plan_all(&segment), 12);
    check(segment == 0, "the segment that is planned", segment);
    check(pcompact_share_segments(&all).number == 0, "shares", 0);
    refused("second shares", pcompact_share_segments(&all).number, 12);
    check(pcompact_begin_slide(&slides[0], &handles[HANDLES - 1], 1).number == 12, "a begin while others share the plan", 0);
    check(slides[0].plan.is_held && !slides[0].regions, "a plan that is shared stays", 0);
    check(pcompact_begin_segments(&all).number == 0, "begins", 0);
    check(pcompact_begin_segments(&all).number == 0, "begins of those that have begun", 0);
    refused("plans after begins", plan_all(&segment), 12);
    refused("forgetting after begins", pcompact_forget_segments(&all), 12);
    by_threads(work, 0);
    end_well_in_all(0);
    free_segments();
    make_segments(2, 2, 200, 0);
    check(plan_all(&segment) == 0 && pcompact_share_segments(&all).number == 0, "plans to forget", 0);
    check(pcompact_forget_segments(&all) == 0 && is_nothing_held() && blocks_held == 0, "plans are forgotten", 0);
    free_segments();
    all = no_segments;
    check(plan_all(&segment) == 0 && pcompact_share_segments(&all).number == 0, "no segments", 0);
    check(pcompact_redirect_segments(&all, 0, &slot, 1) == PCOMPACT_SETTLED, "slots that lead to no segments", 0);
    check(pcompact_begin_segments(&all).number == 0 && pcompact_end_segments(&all, true, answers) == 0, "no slides", 0);
}

/* One share of a plan by calls for a single handle. */
static void share_alone(void) {
    session s = no_session;
    heap *it = &made[0];
    make_segments(1, 1, 200, 0);
    pcompact_handle other = {false, NULL}, third = {false, NULL};
    check(pcompact_share_plan(&s.slide.plan, &other).number == 12 && !other.is_held, "a share without a plan", 0);
    check(plan(it, &s).number == 0, "a plan", 0);
    check(pcompact_share_plan(&s.slide.plan, &other).number == 0, "a share", 0);
    check(pcompact_share_plan(&s.slide.plan, &other).number == 12, "a share for a handle that is held", 0);
    check(pcompact_share_plan(&other, &third).number == 0, "a share of a share", 0);
    check(leads_to(&s.slide.plan, it, to[0].to) && leads_to(&other, it, to[0].to) && leads_to(&third, it, to[0].to), "shares", 0);
    check(begin(&s, 2) == 12 && s.slide.plan.is_held, "a begin while two have shares", 0);
    check(pcompact_forget(&other) == 0 && !other.is_held, "a share is forgotten", 0);
    check(begin(&s, 2) == 12 && leads_to(&s.slide.plan, it, to[0].to), "a begin while one has a share", 0);
    check(pcompact_forget(&third) == 0 && pcompact_forget(&third) == 0, "the other share is forgotten", 0);
    check(begin(&s, 2) == 0, "a begin", 0);
    check(pcompact_share_plan(&s.handles[0], &other).number == 12, "a share of a worker's part", 0);
    check(pcompact_forget(&s.handles[0]) == 12 && s.handles[0].is_held, "a worker's part isn't forgotten", 0);
    end_well(it, &s, 2, true, &to[0], 0);
    check(blocks_held == 0, "nothing is left of shares", (size_t)blocks_held);
    free_segments();
}

static uint32_t plan_call(void) {
    size_t segment;
    return plan_all(&segment);
}

static uint32_t share_call(void) {
    return pcompact_share_segments(&all).number;
}

static uint32_t begin_call(void) {
    return pcompact_begin_segments(&all).number;
}

static bool is_nothing_planned(void) {
    return is_nothing_held() && blocks_held == 0;
}

static bool is_nothing_shared(void) {
    bool is_shared = false;
    for (size_t i = 0; i < HANDLES; i++) is_shared |= handles[i].is_held;
    return !is_shared;
}

/* Each slide is planned or has begun. */
static bool is_each_planned(void) {
    bool is_each = true;
    for (size_t i = 0; i < all.segment_count; i++) is_each &= slides[i].plan.is_held == !slides[i].regions;
    return is_each;
}

/* Refuses each allocation of a call in turn, after which this must hold. */
static void refuse_each(const char *what, uint32_t (*call)(void), bool (*holds)(void)) {
    uint32_t fault = 11;
    long allocations = -1;
    while (fault == 11) {
        requests_left = ++allocations;
        fault = call();
        requests_left = -1;
        check(fault == 0 || (fault == 11 && holds()), what, (size_t)allocations);
    }
    check(allocations > 5, what, (size_t)allocations);
    printf("%s: %ld allocations, each refused in turn\n", what, allocations);
}

static void refuse_memory(void) {
    make_segments(3, 2, 200, 0);
    refuse_each("plans", plan_call, is_nothing_planned);
    refuse_each("shares", share_call, is_nothing_shared);
    refuse_each("begins", begin_call, is_each_planned);
    by_threads(work, 0);
    end_well_in_all(0);
    free_segments();
}

int main(int argc, char **argv) {
    size_t heaps = argc > 1 ? strtoul(argv[1], NULL, 10) : 300;
    if (argc > 2) take_seed(strtoul(argv[2], NULL, 10));
    check(pcompact_segment_handles(MOST_SEGMENTS, MOST_THREADS) == HANDLES, "as many handles", HANDLES);
    refuse_calls();
    share_alone();
    refuse_memory();
    for (size_t number = 0; number < heaps; number++) slide_segments(1 + below(MOST_SEGMENTS), number);
    printf("%zu heaps in segments\n", heaps);
    return end_counts();
}
