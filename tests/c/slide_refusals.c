/* Calls of slides that are refused, after which all is as it was: wrong numbers, calls in a wrong order, handles of another slide
 * or of a collection, and each allocation of a plan, a begin and an end in turn.
 *
 * usage: slide_refusals */
#include "opaque.h"
#include "refusing_heap.h"
#include <stdio.h>
#include <stdlib.h>
#include <string.h>

/* A small heap with a last region of its own, what is wanted of it, and a copy. */
static heap small, second;
static wanted of_small, of_second;
static uint64_t copy[MOST_WORDS];

static void make_small(heap *it, wanted *to) {
    make_heap(it, 101, GUARD, (pcompact_settings){3, 0});
    add_objects(it, SCATTERED);
    want(it, false, to);
}

static bool is_zero(const pcompact_fault *it) {
    return it->field == 0 && it->place == 0;
}

/* A plan that returns this fault, and leaves all. */
typedef struct bad_plan {
    const char *what;
    uint64_t word_count, live_count, live[2];
    uint32_t sizes[2], region_log, fault;
    uint64_t place;
} bad_plan;

static void refuse_plans(void) {
    static const uint64_t many = UINT64_C(1) << 36, objects = UINT64_C(1) << 32, regions = UINT64_C(1) << 20;
    const bad_plan bad[] = {
        {"no word", 0, 0, {0, 0}, {1, 1}, 3, 4, 0},
        {"too many words", many + 1, 0, {0, 0}, {1, 1}, 20, 4, 0},
        {"all words that there could be", UINT64_MAX, 0, {0, 0}, {1, 1}, 20, 4, 0},
        {"too many regions", 8 * regions + 1, 0, {0, 0}, {1, 1}, 3, 4, 0},
        {"too many objects", 101, objects, {0, 0}, {1, 1}, 3, 4, 0},
        {"small regions", 101, 2, {3, 9}, {1, 1}, 2, 3, 0},
        {"large regions", 101, 2, {3, 9}, {1, 1}, 21, 3, 0},
        {"larger regions", 101, 2, {3, 9}, {1, 1}, UINT32_MAX, 3, 0},
        {"an address outside", 101, 2, {3, 101}, {1, 1}, 3, 6, 1},
        {"a first address outside", 101, 2, {UINT64_MAX, 9}, {1, 1}, 3, 6, 0},
        {"an address twice", 101, 2, {9, 9}, {1, 1}, 3, 6, 1},
        {"addresses that descend", 101, 2, {9, 3}, {1, 1}, 3, 6, 1},
        {"a size of 0", 101, 2, {3, 9}, {1, 0}, 3, 7, 9},
        {"a size of 0 before another fault", 101, 2, {9, 3}, {0, 1}, 3, 7, 9},
        {"a word behind the last", 101, 2, {3, 99}, {1, 3}, 3, 7, 99},
        {"the largest size", 101, 2, {3, 9}, {UINT32_MAX, 1}, 3, 7, 3},
        {"an overlap", 101, 2, {3, 9}, {7, 1}, 3, 8, 9},
    };
    session s = no_session;
    make_small(&small, &of_small);
    memcpy(copy, small.block, 8 * small.block_count);
    for (size_t i = 0; i < sizeof bad / sizeof *bad; i++) {
        const bad_plan *it = &bad[i];
        pcompact_settings settings = {it->region_log, 0};
        pcompact_fault fault = pcompact_plan(small.words, it->word_count, it->live, it->sizes, it->live_count, settings, &s.slide);
        check(fault.number == it->fault && fault.field == 0 && fault.place == it->place, it->what, fault.number);
        check(is_same_session(&s, &no_session) && blocks_held == 0, it->what, i);
        check(memcmp(copy, small.block, 8 * small.block_count) == 0, it->what, i);
    }
    pcompact_settings least = {3, 0}, greatest = {20, 0};
    check(pcompact_plan(small.words, 8 * regions, small.live, small.sizes, 1, least, &s.slide).number == 0, "many regions", 0);
    check(pcompact_forget_slide(&s.slide) == 0, "many regions are forgotten", 0);
    check(pcompact_plan(small.words, 101, small.live, small.sizes, 1, greatest, &s.slide).number == 0, "a large region", 0);
    check(pcompact_forget_slide(&s.slide) == 0, "a large region is forgotten", 0);
    check(is_same_session(&s, &no_session) && blocks_held == 0, "nothing is left", (size_t)blocks_held);
    free(small.block);
}

/* What returns fault 12 must leave all sessions and words. */
static void refused(const char *what, bool is_refused, const session *s, const session *same) {
    check(is_refused, what, 12);
    check(is_same_session(s, same) && memcmp(copy, small.block, 8 * small.block_count) == 0, what, 0);
}

static void refuse_second_plan(const char *what, session *s) {
    session same = *s;
    pcompact_fault fault = plan(&small, s);
    refused(what, fault.number == 12 && is_zero(&fault), s, &same);
}

static void refuse_begin(const char *what, session *s, size_t workers) {
    session same = *s;
    pcompact_fault fault = pcompact_begin_slide(&s->slide, s->handles, workers);
    refused(what, fault.number == 12 && is_zero(&fault), s, &same);
}

/* An end of this session's slide by these handles. */
static void refuse_end(const char *what, session *s, pcompact_handle *handles, size_t workers) {
    session same = *s;
    pcompact_answer answer;
    memset(&answer, 0x5a, sizeof answer);
    uint32_t fault = pcompact_end_slide(&s->slide, handles, workers, true, &answer);
    bool is_refused = fault == 12 && answer.fault.number == 12 && is_zero(&answer.fault) && answer.prefix_end == 0
        && answer.new_top == 0 && answer.filled_regions == 0;
    refused(what, is_refused, s, &same);
}

static void refuse_forget(const char *what, session *s) {
    session same = *s;
    uint32_t fault = pcompact_forget_slide(&s->slide);
    refused(what, fault == 12, s, &same);
}

/* Calls of a slide in a wrong order, or with handles of another. */
static void refuse_calls(void) {
    session s = no_session, other = no_session;
    make_small(&small, &of_small);
    make_small(&second, &of_second);
    memcpy(copy, small.block, 8 * small.block_count);
    check(pcompact_forget_slide(&s.slide) == 0 && is_same_session(&s, &no_session), "nothing is forgotten", 0);
    refuse_begin("a begin without a plan", &s, 2);
    refuse_end("an end without a plan", &s, s.handles, 2);
    check(plan(&small, &s).number == 0 && pcompact_forget_slide(&s.slide) == 0, "a plan is forgotten", 0);
    check(is_same_session(&s, &no_session) && blocks_held == 0, "a plan that is forgotten", 0);
    check(plan(&small, &s).number == 0 && plan(&second, &other).number == 0, "two plans", 0);
    refuse_second_plan("a second plan", &s);
    refuse_begin("a begin of no handles", &s, 0);
    refuse_begin("a begin of 65 handles", &s, MOST_WORKERS + 1);
    refuse_end("an end before a begin", &s, s.handles, 2);
    check(begin(&other, 2) == 0, "a begin of another", 2);
    s.handles[1] = other.handles[0];
    refuse_begin("a begin over a held handle", &s, 2);
    refuse_end("an end before a begin by handles of another", &s, other.handles, 2);
    s.handles[1] = no_session.handles[1];
    check(is_planned(&s, &small) && leads_to(&s.slide.plan, &small, of_small.to), "a plan after begins that are refused", 0);
    check(begin(&s, 3) == 0, "a begin after begins that are refused", 3);
    refuse_second_plan("a plan after a begin", &s);
    refuse_begin("a second begin", &s, 3);
    refuse_forget("a slide that has begun is forgotten", &s);
    refuse_end("an end of no handles", &s, s.handles, 0);
    refuse_end("an end of two of three handles", &s, s.handles, 2);
    refuse_end("an end of one handle too many", &s, s.handles, 4);
    refuse_end("an end by handles of another", &s, other.handles, 2);
    pcompact_handle mixed[3] = {s.handles[0], other.handles[1], s.handles[2]};
    refuse_end("an end by handles of two", &s, mixed, 3);
    check(pcompact_work_all(&s.handles[1]) == PCOMPACT_SETTLED, "work after ends that are refused", 1);
    mixed[0] = s.handles[0];
    s.handles[0] = s.handles[2];
    s.handles[2] = mixed[0];
    end_well(&small, &s, 3, false, &of_small, 3);
    end_well(&second, &other, 2, false, &of_second, 2);
    memcpy(copy, small.block, 8 * small.block_count);
    refuse_end("a second end", &s, s.handles, 3);
    check(pcompact_new_address(&s.slide.plan, 0) == UINT64_MAX, "no new address without a plan", 0);
    free(small.block);
    free(second.block);
}

/* A collection over a copy, over lent words, or in place, of a heap of ours beside the slide. */
enum origin { COPIED, LENT, IN_PLACE, ORIGINS };
enum { SIZE = 8, REGIONS = 4, WORDS = SIZE * REGIONS, LIVE = 2 };

typedef struct collection {
    uint64_t words[WORDS], out[WORDS], list[LIVE];
    pcompact_words parts[REGIONS];
    pcompact_regions regions;
    pcompact_handle handles[2];
} collection;

static const pcompact_settings of_collection = {3, 0};

static void begin_collection(collection *it, enum origin origin) {
    const collection empty = {.list = {5, 15}};
    *it = empty;
    for (size_t at = 0; at < 30; at += 5) it->words[at] = (UINT64_C(1) << 56) + 5;
    pcompact_fault fault;
    if (origin == COPIED) fault = pcompact_begin(it->words, WORDS, it->list, LIVE, of_collection, it->handles, 2);
    if (origin == IN_PLACE) {
        fault = pcompact_begin_in_place(it->words, WORDS, it->list, LIVE, of_collection, it->handles, 2, &it->regions);
    }
    if (origin == LENT) {
        pcompact_cut(it->words, WORDS, 3, it->parts);
        fault = pcompact_begin_lent(it->parts, REGIONS, it->list, LIVE, of_collection, it->handles, 2);
    }
    check(fault.number == 0, "a begin of a collection", origin);
}

/* Ends a collection with these handles. */
static uint32_t end_collection(collection *it, enum origin origin, pcompact_handle *handles, size_t workers) {
    pcompact_answer answer;
    if (origin == COPIED) return pcompact_end(handles, workers, it->out, WORDS, it->list, LIVE, &answer);
    if (origin == LENT) return pcompact_end_lent(handles, workers, it->parts, REGIONS, it->list, LIVE, &answer);
    return pcompact_end_in_place(handles, workers, &it->regions, it->list, LIVE, &answer);
}

/* The handles of a slide are refused by the ends of collections, and those of collections by the end of a slide. */
static void refuse_kinds(enum origin origin) {
    session s = no_session, planned = no_session, same;
    collection it;
    pcompact_answer answer;
    make_small(&small, &of_small);
    make_small(&second, &of_second);
    memcpy(copy, small.block, 8 * small.block_count);
    begin_collection(&it, origin);
    check(plan(&small, &s).number == 0 && begin(&s, 2) == 0 && plan(&second, &planned).number == 0, "a slide beside it", origin);
    same = s;
    for (size_t workers = 1; workers < 3; workers++) {
        refused("an end of a collection by a slide's handles", end_collection(&it, origin, s.handles, workers) == 12, &s, &same);
    }
    pcompact_regions regions = {s.slide.regions, s.slide.region_count};
    uint32_t fault = pcompact_end_in_place(s.handles, 2, &regions, it.list, LIVE, &answer);
    refused("an end in place of a slide's regions", fault == 12 && regions.at == s.slide.regions, &s, &same);
    fault = pcompact_end_lent(s.handles, 2, s.slide.regions, s.slide.region_count, it.list, LIVE, &answer);
    refused("an end of a slide's regions as lent words", fault == 12, &s, &same);
    refuse_end("an end of a slide by a collection's handles", &s, it.handles, 2);
    pcompact_handle mixed[2] = {s.handles[0], it.handles[1]};
    refuse_end("an end of a slide by handles of both", &s, mixed, 2);
    refused("an end of a collection by handles of both", end_collection(&it, origin, mixed, 2) == 12, &s, &same);
    refused("an end of a collection by a plan", end_collection(&it, origin, &planned.slide.plan, 1) == 12, &s, &same);
    refuse_end("an end of a slide by a plan", &s, &planned.slide.plan, 1);
    fault = pcompact_begin_slide(&planned.slide, it.handles, 2).number;
    check(fault == 12 && is_planned(&planned, &second), "a begin over a collection's handles", fault);
    fault = pcompact_begin(it.words, WORDS, it.list, LIVE, of_collection, s.handles, 2).number;
    refused("a begin of a collection over a slide's handles", fault == 12, &s, &same);
    fault = pcompact_begin(it.words, WORDS, it.list, LIVE, of_collection, &planned.slide.plan, 1).number;
    check(fault == 12 && is_planned(&planned, &second), "a begin of a collection over a plan", fault);
    check(end_collection(&it, origin, it.handles, 2) == 0 && it.list[0] == 0 && it.list[1] == 5, "the right end", origin);
    check(!it.handles[0].is_held && !it.handles[1].is_held, "free handles of a collection", origin);
    end_well(&small, &s, 2, false, &of_small, 2);
    check(leads_to(&planned.slide.plan, &second, of_second.to), "a plan goes on", origin);
    check(pcompact_forget_slide(&planned.slide) == 0 && blocks_held == 0, "a plan is forgotten", (size_t)blocks_held);
    free(small.block);
    free(second.block);
}

/* Each allocation of a call is refused in turn. Each returns whether one was refused of which this many succeed. */
static bool plan_with(session *s, long allocations) {
    requests_left = allocations;
    pcompact_fault fault = plan(&small, s);
    requests_left = -1;
    if (fault.number == 0) return false;
    check(fault.number == 11 && is_zero(&fault) && is_same_session(s, &no_session), "a plan without memory", (size_t)allocations);
    check(blocks_held == 0, "a block is left of a plan", (size_t)allocations);
    return true;
}

static bool begin_with(session *s, long allocations) {
    long held = blocks_held;
    requests_left = allocations;
    uint32_t fault = begin(s, 3);
    requests_left = -1;
    if (fault == 0) return false;
    check(fault == 11 && is_planned(s, &small), "a begin without memory", (size_t)allocations);
    check(leads_to(&s->slide.plan, &small, of_small.to) && blocks_held == held, "a plan stays", (size_t)allocations);
    return true;
}

static bool end_with(session *s, long allocations) {
    session same = *s;
    pcompact_answer answer;
    long held = blocks_held;
    requests_left = allocations;
    uint32_t fault = pcompact_end_slide(&s->slide, s->handles, 3, false, &answer);
    requests_left = -1;
    if (fault == 0) return false;
    check(fault == 11 && answer.fault.number == 11 && answer.new_top == 0, "an end without memory", (size_t)allocations);
    check(is_same_session(s, &same) && blocks_held == held, "a slide goes on", (size_t)allocations);
    return true;
}

static void refuse_memory(void) {
    static bool (*const calls[])(session *, long) = {plan_with, begin_with, end_with};
    static const char *const names[] = {"plan", "begin", "end"};
    session s = no_session;
    make_small(&small, &of_small);
    memcpy(copy, small.block, 8 * small.block_count);
    for (size_t call = 0; call < 3; call++) {
        long allocations = 0;
        while (calls[call](&s, allocations)) {
            check(memcmp(copy, small.block, 8 * small.block_count) == 0, "words without memory", call);
            allocations++;
        }
        check(allocations > 0, "allocations", call);
        printf("%s: %ld allocations, each refused in turn\n", names[call], allocations);
    }
    check(memcmp(small.block, of_small.block, 8 * small.block_count) == 0, "the words after all", 0);
    check(is_same_session(&s, &no_session) && blocks_held == 0, "a block is left", (size_t)blocks_held);
    free(small.block);
}

int main(void) {
    refuse_plans();
    refuse_calls();
    for (int origin = 0; origin < ORIGINS; origin++) refuse_kinds((enum origin)origin);
    refuse_memory();
    return end_counts();
}
