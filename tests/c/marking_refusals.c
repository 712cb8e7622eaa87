/* Calls of markings that are refused, after which all is as it was: each rule of layouts and its edges, wrong numbers of words,
 * objects without sound headers and over each other, handles without what a call wants, and each allocation in turn. Then calls
 * between pages that nobody can read, over words that nobody can write.
 *
 * usage: marking_refusals */
#define _DEFAULT_SOURCE
#include "coded.h"
#include "refusing_heap.h"
#include <stdio.h>
#include <stdlib.h>
#include <string.h>
#include <sys/mman.h>

/* A heap of OCaml's layout in which one root reaches all objects, and what is wanted of it. */
enum { WORDS = 21, DEAD = 77 };

typedef struct block {
    uint64_t at, size, tag;
} block;

static const block blocks[] = {{0, 3, 0}, {4, 4, 0}, {9, 5, 252}, {14, 2, 250}, {17, 4, 1}};
static coded_heap it;
static session s;
static uint64_t root, copy[WORDS];
static bool reached[WORDS];

static uint64_t value_of(uint64_t at) {
    return word_by(&it.layout, at);
}

static void make_blocks(void) {
    memset(it.heap.words, 0, sizeof copy);
    for (size_t i = 0; i < 5; i++) it.heap.words[blocks[i].at] = (blocks[i].size - 1) << 10 | blocks[i].tag;
    uint64_t *words = it.heap.words;
    words[1] = value_of(4);
    words[5] = value_of(9);
    words[6] = value_of(17);
    words[10] = value_of(14);
    words[18] = value_of(4);
    words[19] = 1;
    words[20] = 2 * 33 + 1;
    root = value_of(0);
}

/* Marks what the root reaches, all objects but that at 14, to which no reference leads. */
static void mark_blocks(void) {
    make_heap(&it.heap, WORDS, GUARD, (pcompact_settings){3, 0});
    it.layout = pcompact_ocaml_layout((uintptr_t)it.heap.words);
    memset(it.is_reached, 0, sizeof it.is_reached);
    make_blocks();
    s = no_session;
    check(pcompact_begin_marking(WORDS, &s.slide.plan).number == 0, "a begin", 0);
    check(pcompact_mark(&s.slide.plan, it.heap.words, WORDS, &it.layout, &root, 1).number == 0, "a marking", 0);
    reach(&it, &root, 1);
    check(it.heap.live_count == 4 && !it.is_reached[14], "the objects that are reached", it.heap.live_count);
    memcpy(copy, it.heap.words, sizeof copy);
}

/* Whether the words and what is marked are as they were. */
static bool is_as_it_was(void) {
    bool is_same = memcmp(it.heap.words, copy, sizeof copy) == 0;
    for (uint64_t a = 0; a < WORDS; a++) is_same &= pcompact_is_reached(&s.slide.plan, a) == it.is_reached[a];
    return is_same;
}

static bool is_fault(pcompact_fault fault, uint32_t number, uint32_t field, uint64_t place) {
    return fault.number == number && fault.field == field && fault.place == place;
}

/* A refused call must return this fault without an address, and leave all. */
static void refused(const char *what, pcompact_fault fault, uint32_t number) {
    check(is_fault(fault, number, 0, 0) && is_as_it_was(), what, fault.number);
}

static void forget_marking(const char *what) {
    check(pcompact_forget_slide(&s.slide) == 0 && is_same_session(&s, &no_session) && blocks_held == 0, what, (size_t)blocks_held);
    free(it.heap.block);
}

/* A layout for so many words that breaks this rule, or none. */
typedef struct row {
    const char *what;
    uint32_t rule;
    uint64_t word_count;
    pcompact_layout layout;
} row;

static const row rows[] = {
    {"a size of 32 bits", 0, WORDS, {.size_bits = 32}},
    {"a size in the highest bits", 0, WORDS, {.size_shift = 32, .size_bits = 32}},
    {"a size of 63 bits", 0, WORDS, {.size_shift = 1, .size_bits = 63}},
    {"a size from bit 64 on", 1, WORDS, {.size_shift = 64, .size_bits = 32}},
    {"a size of 64 bits", 1, WORDS, {.size_bits = 64}},
    {"a size beyond the highest bit", 1, WORDS, {.size_shift = 33, .size_bits = 32}},
    {"a long size beyond the highest bit", 1, WORDS, {.size_shift = 2, .size_bits = 63}},
    {"a size whose bits add up to 44 in 8 bits", 1, WORDS, {.size_shift = 200, .size_bits = 100}},
    {"the largest numbers of a size", 1, WORDS, {.size_shift = 255, .size_bits = 255}},
    {"a size of 31 bits", 2, WORDS, {.size_bits = 31}},
    {"a size of no bits", 2, WORDS, {.size_bits = 0}},
    {"a size in the highest bit", 2, WORDS, {.size_shift = 63, .size_bits = 1}},
    {"a size of 35 bits in bytes", 0, WORDS, {.size_bits = 35, .size_unit = 3}},
    {"a size of 34 bits in bytes", 2, WORDS, {.size_bits = 34, .size_unit = 3}},
    {"the smallest units", 0, WORDS, {.size_bits = 63, .size_unit = 31}},
    {"smaller units", 2, WORDS, {.size_bits = 63, .size_unit = 32}},
    {"the largest number of units", 2, WORDS, {.size_bits = 63, .size_unit = 255}},
    {"a type in the highest bits", 0, WORDS, {.size_bits = 32, .type_shift = 56, .type_bits = 8}},
    {"a type in the highest bit", 0, WORDS, {.size_bits = 32, .type_shift = 63, .type_bits = 1}},
    {"a type of no bit", 0, WORDS, {.size_bits = 32, .type_shift = 63}},
    {"a type of no bit beyond the highest", 3, WORDS, {.size_bits = 32, .type_shift = 64}},
    {"a type of 9 bits", 3, WORDS, {.size_bits = 32, .type_bits = 9}},
    {"a type beyond the highest bit", 3, WORDS, {.size_bits = 32, .type_shift = 57, .type_bits = 8}},
    {"the largest numbers of a type", 3, WORDS, {.size_bits = 32, .type_shift = 255, .type_bits = 255}},
    {"a number of references of 63 bits", 0, WORDS, {.size_bits = 32, .first_shift = 1, .first_bits = 63}},
    {"a number of references of no bit beyond the highest", 4, WORDS, {.size_bits = 32, .first_shift = 64}},
    {"a number of references of 64 bits", 4, WORDS, {.size_bits = 32, .first_bits = 64}},
    {"a number of references beyond the highest bit", 4, WORDS, {.size_bits = 32, .first_shift = 63, .first_bits = 2}},
    {"the largest numbers of a number of references", 4, WORDS, {.size_bits = 32, .first_shift = 255, .first_bits = 255}},
    {"modes of 2", 0, WORDS, {.size_bits = 32, .modes = {[0] = 2, [128] = 2, [255] = 2}}},
    {"a first mode of 3", 5, WORDS, {.size_bits = 32, .modes = {3}}},
    {"a last mode of 3, of a type that there isn't", 5, WORDS, {.size_bits = 32, .modes = {[255] = 3}}},
    {"the largest mode", 5, WORDS, {.size_bits = 32, .modes = {[128] = 255}}},
    {"the last addresses", 0, WORDS, {.size_bits = 32, .unit = 3, .base = -8 * WORDS}},
    {"an address beyond the last", 6, WORDS, {.size_bits = 32, .unit = 3, .base = -8 * WORDS + 1}},
    {"a unit of 2 ^ 64", 6, WORDS, {.size_bits = 32, .unit = 64}},
    {"the largest unit", 6, 0, {.size_bits = 32, .unit = 255}},
    {"two words apart by 2 ^ 63", 0, 2, {.size_bits = 32, .unit = 63}},
    {"three words apart by 2 ^ 63", 6, 3, {.size_bits = 32, .unit = 63}},
    {"two words apart by 2 ^ 63 from 1 on", 6, 2, {.size_bits = 32, .unit = 63, .base = 1}},
    {"no word at the last address", 0, 0, {.size_bits = 32, .unit = 63, .base = UINT64_MAX}},
    {"a word at the last address", 0, 1, {.size_bits = 32, .base = UINT64_MAX}},
    {"two words at the last address", 6, 2, {.size_bits = 32, .base = UINT64_MAX}},
    {"the most words, to the last address", 0, UINT64_C(1) << 36, {.size_bits = 32, .unit = 28}},
    {"the most words, beyond the last address", 6, UINT64_C(1) << 36, {.size_bits = 32, .unit = 29}},
    {"a tag around the size", 0, WORDS, {.size_shift = 8, .size_bits = 32, .filler_tag = ~(UINT64_C(0xffffffff) << 8)}},
    {"a tag in the size's lowest bit", 7, WORDS, {.size_shift = 8, .size_bits = 32, .filler_tag = UINT64_C(1) << 8}},
    {"a tag in the size's highest bit", 7, WORDS, {.size_shift = 8, .size_bits = 32, .filler_tag = UINT64_C(1) << 39}},
    {"a filler without a header", 0, WORDS, {.size_bits = 32, .size_more = 1, .filler_less = 1}},
    {"a filler that lacks more than an object", 8, WORDS, {.size_bits = 32, .filler_less = 1}},
    {"a filler that lacks nothing", 8, WORDS, {.size_bits = 32, .size_more = 1}},
    {"a filler that lacks two words", 8, WORDS, {.size_bits = 32, .size_more = 2, .filler_less = 2}},
    {"the largest sizes to add", 8, WORDS, {.size_bits = 32, .size_more = UINT64_MAX, .filler_less = UINT64_MAX}},
    {"bytes that are rounded up", 0, WORDS, {.size_bits = 35, .size_unit = 3, .size_more = 15, .filler_less = 8}},
    {"bytes that are rounded down", 0, WORDS, {.size_bits = 35, .size_unit = 3, .size_more = 7}},
    {"bytes that are rounded up to more", 8, WORDS, {.size_bits = 35, .size_unit = 3, .size_more = 16, .filler_less = 8}},
    {"bytes of a header and more", 8, WORDS, {.size_bits = 35, .size_unit = 3, .size_more = 9, .filler_less = 9}},
    {"bytes that no filler lacks", 8, WORDS, {.size_bits = 35, .size_unit = 3, .size_more = 8}},
};

static bool has_text(pcompact_fault fault, const char *wanted) {
    uint8_t text[64];
    return pcompact_fault_text(fault, text, sizeof text) == strlen(wanted) && strcmp((char *)text, wanted) == 0;
}

/* No call takes a wrong layout, and each says which rule it breaks. `plan` has a plan of other words. */
static void refuse_layout(const row *row, pcompact_handle *plan) {
    uint64_t *words = it.heap.words;
    char text[64] = "";
    pcompact_fault fault = pcompact_check_layout(&row->layout, row->word_count);
    check(is_fault(fault, row->rule > 0 ? 18 : 0, row->rule, 0), row->what, fault.field);
    if (row->rule > 0) snprintf(text, sizeof text, "18 layout rule %u", row->rule);
    check(has_text(fault, text), row->what, row->rule);
    if (row->rule == 0 || row->word_count != WORDS) return;
    fault = pcompact_mark(&s.slide.plan, words, WORDS, &row->layout, &root, 1);
    check(is_fault(fault, 18, row->rule, 0) && is_as_it_was(), row->what, 1);
    fault = pcompact_plan_marked(words, WORDS, &row->layout, it.heap.settings, &s.slide);
    check(is_fault(fault, 18, row->rule, 0) && is_as_it_was(), row->what, 2);
    fault = pcompact_redirect_objects(plan, words, WORDS, &row->layout, (pcompact_objects){0, WORDS, DEAD});
    check(is_fault(fault, 18, row->rule, 0) && is_as_it_was(), row->what, 3);
}

/* The live objects of `it`, planned by a session of their own. */
static void plan_second(session *second) {
    *second = no_session;
    check(pcompact_begin_marking(WORDS, &second->slide.plan).number == 0, "a begin of a second marking", 0);
    check(pcompact_mark(&second->slide.plan, it.heap.words, WORDS, &it.layout, &root, 1).number == 0, "a second marking", 0);
    check(pcompact_plan_marked(it.heap.words, WORDS, &it.layout, it.heap.settings, &second->slide).number == 0, "a plan", 0);
}

static void refuse_layouts(void) {
    static const uint64_t many = (UINT64_C(1) << 36) + 1;
    const pcompact_layout *broken = &rows[3].layout;
    session second;
    mark_blocks();
    plan_second(&second);
    for (size_t i = 0; i < sizeof rows / sizeof *rows; i++) refuse_layout(&rows[i], &second.slide.plan);
    check(is_fault(pcompact_check_layout(&it.layout, many), 4, 0, 0), "too many words for a layout", 0);
    check(is_fault(pcompact_check_layout(broken, many), 4, 0, 0), "too many words for a wrong layout", 0);
    check(is_fault(pcompact_check_layout(broken, UINT64_MAX), 4, 0, 0), "all words that there could be", 0);
    pcompact_objects objects = {0, many, DEAD};
    refused("too many words to redirect", pcompact_redirect_objects(&second.slide.plan, it.heap.words, WORDS, &it.layout, objects), 4);
    check(pcompact_forget_slide(&second.slide) == 0, "a second plan is forgotten", 0);
    forget_marking("a marking after wrong layouts");
}

/* Both hosts' layouts have these numbers, wherever their heaps begin. */
static void check_hosts(void) {
    pcompact_layout ocaml = {.size_shift = 10, .size_bits = 54, .type_bits = 8, .unit = 3, .size_more = 1, .base = 1008,
                             .filler_tag = 251, .filler_less = 1};
    pcompact_layout scheme48 = {.size_shift = 8, .size_bits = 56, .size_unit = 3, .type_shift = 2, .type_bits = 5, .unit = 3,
                                .size_more = 15, .base = 1011, .filler_tag = 70, .filler_less = 8};
    memset(ocaml.modes, 1, 251);
    memset(scheme48.modes, 1, 16);
    scheme48.modes[13] = 0;
    pcompact_layout one = pcompact_ocaml_layout(1000), other = pcompact_scheme48_layout(1000);
    check(memcmp(&one, &ocaml, sizeof one) == 0, "OCaml's layout", 0);
    check(memcmp(&other, &scheme48, sizeof other) == 0, "Scheme 48's layout", 0);
    one = pcompact_ocaml_layout(UINTPTR_MAX);
    other = pcompact_scheme48_layout(UINTPTR_MAX);
    check(one.base == UINT64_MAX && pcompact_check_layout(&one, 0).number == 0, "OCaml's layout at the end of memory", 0);
    check(other.base == UINT64_MAX && pcompact_check_layout(&other, 0).number == 0, "Scheme 48's layout at the end of memory", 0);
    check(is_fault(pcompact_check_layout(&one, 1), 18, 6, 0), "OCaml's words beyond memory", 0);
}

/* A header at this address that is none, which stops a marking. */
typedef struct bad_header {
    const char *what;
    uint64_t at, header;
} bad_header;

/* Nothing is marked but what the root reaches, whatever was marked before the header that isn't sound. */
static void refuse_header(const bad_header *bad, const pcompact_layout *layout) {
    uint64_t mine = word_by(layout, 0);
    s = no_session;
    check(pcompact_begin_marking(WORDS, &s.slide.plan).number == 0, "a begin", 0);
    memcpy(it.heap.words, copy, sizeof copy);
    it.heap.words[bad->at] = bad->header;
    pcompact_fault fault = pcompact_mark(&s.slide.plan, it.heap.words, WORDS, layout, &mine, 1);
    check(is_fault(fault, 7, 0, bad->at) && has_text(fault, bad->at == 0 ? "7 header at 0" : "7 header at 17"), bad->what, fault.place);
    bool is_within = pcompact_is_reached(&s.slide.plan, bad->at);
    for (uint64_t a = 0; a < WORDS; a++) is_within &= reached[a] || !pcompact_is_reached(&s.slide.plan, a);
    check(is_within, bad->what, 1);
    copy[bad->at] = bad->header;
    check(memcmp(it.heap.words, copy, sizeof copy) == 0, bad->what, 2);
    check(pcompact_forget_slide(&s.slide) == 0 && blocks_held == 0, bad->what, 3);
}

/* Objects of a layout with a number of references of its own. */
static void refuse_headers(void) {
    const pcompact_layout counted = {.size_bits = 32, .first_shift = 32, .first_bits = 32, .unit = 3, .modes = {2}};
    const bad_header bad[] = {
        {"no size", 17, 0}, {"no size at 0", 0, 0}, {"an object beyond the last word", 17, 5},
        {"the largest object", 17, UINT32_MAX}, {"as many references as words", 17, UINT64_C(4) << 32 | 4},
        {"more references than words", 17, UINT64_C(5) << 32 | 4}, {"a header of ones", 17, UINT64_MAX},
    };
    mark_blocks();
    check(pcompact_forget_slide(&s.slide) == 0, "a marking is forgotten", 0);
    memset(copy, 0, sizeof copy);
    memset(reached, 0, sizeof reached);
    copy[0] = UINT64_C(2) << 32 | 4;
    copy[1] = word_by(&counted, 8);
    copy[2] = word_by(&counted, 17);
    copy[8] = UINT64_C(1) << 32 | 2;
    copy[9] = word_by(&counted, 0);
    copy[17] = UINT64_C(3) << 32 | 4;
    reached[0] = reached[8] = reached[17] = true;
    uint64_t whole[WORDS];
    memcpy(whole, copy, sizeof whole);
    for (size_t i = 0; i < sizeof bad / sizeof *bad; i++) {
        refuse_header(&bad[i], &counted);
        memcpy(copy, whole, sizeof copy);
    }
    uint64_t mine = word_by(&counted, 0);
    memcpy(it.heap.words, whole, sizeof whole);
    check(pcompact_begin_marking(WORDS, &s.slide.plan).number == 0, "a begin", 0);
    check(pcompact_mark(&s.slide.plan, it.heap.words, WORDS, &counted, &mine, 1).number == 0, "the last object that fits", 0);
    forget_marking("a marking of sound headers");
}

/* A reference into an object, whose words there are a sound header too: both are marked, and can't be planned. */
static void refuse_overlaps(void) {
    mark_blocks();
    uint64_t inner = value_of(6);
    it.heap.words[6] = 1 << 10 | 252;
    memcpy(copy, it.heap.words, sizeof copy);
    check(pcompact_mark(&s.slide.plan, it.heap.words, WORDS, &it.layout, &inner, 1).number == 0, "an object inside another", 0);
    reach(&it, &inner, 1);
    check(is_as_it_was(), "an object inside another is marked", 0);
    pcompact_fault fault = pcompact_plan_marked(it.heap.words, WORDS, &it.layout, it.heap.settings, &s.slide);
    check(is_fault(fault, 8, 0, 6) && is_as_it_was(), "objects over each other", fault.place);
    forget_marking("a marking that can't be planned");
}

static void refuse_numbers(void) {
    static const uint64_t most = UINT64_C(1) << 36, regions = UINT64_C(1) << 20;
    pcompact_handle other = {false, NULL};
    mark_blocks();
    refused("a begin over a marking", pcompact_begin_marking(WORDS, &s.slide.plan), 12);
    check(is_fault(pcompact_begin_marking(most + 1, &other), 4, 0, 0) && !other.is_held, "too many words", 0);
    check(is_fault(pcompact_begin_marking(UINT64_MAX, &other), 4, 0, 0) && !other.is_held, "all words", 0);
    requests_left = 0;
    check(is_fault(pcompact_begin_marking(most, &other), 11, 0, 0) && !other.is_held, "the most words without memory", 0);
    requests_left = -1;
    for (size_t count = WORDS - 1; count <= WORDS + 1; count += 2) {
        refused("roots of another heap", pcompact_mark(&s.slide.plan, it.heap.words, count, &it.layout, &root, 1), 4);
        refused("a plan of another heap", pcompact_plan_marked(it.heap.words, count, &it.layout, it.heap.settings, &s.slide), 4);
    }
    static const uint32_t logs[] = {0, 2, 21, UINT32_MAX};
    for (size_t i = 0; i < 4; i++) {
        pcompact_settings settings = {logs[i], 0};
        refused("wrong regions", pcompact_plan_marked(it.heap.words, WORDS, &it.layout, settings, &s.slide), 3);
    }
    forget_marking("a marking after wrong numbers");
    mark_blocks();
    check(pcompact_forget_slide(&s.slide) == 0 && pcompact_begin_marking(0, &s.slide.plan).number == 0, "a marking of no word", 0);
    check(pcompact_mark(&s.slide.plan, it.heap.words, 0, &it.layout, &root, 1).number == 0, "roots without a heap", 0);
    check(!pcompact_is_reached(&s.slide.plan, 0), "nothing is reached without a heap", 0);
    pcompact_fault fault = pcompact_plan_marked(it.heap.words, 0, &it.layout, it.heap.settings, &s.slide);
    check(is_fault(fault, 4, 0, 0) && s.slide.plan.is_held, "a plan of no word", fault.number);
    check(pcompact_forget(&s.slide.plan) == 0, "a marking of no word is forgotten", 0);
    check(pcompact_begin_marking(8 * regions + 1, &s.slide.plan).number == 0, "a marking of many words", 0);
    fault = pcompact_plan_marked(it.heap.words, 8 * regions + 1, &it.layout, (pcompact_settings){3, 0}, &s.slide);
    check(is_fault(fault, 4, 0, 0) && s.slide.plan.is_held, "too many regions", fault.number);
    forget_marking("a marking of many words");
}

/* What needs a marking or a plan is refused by a handle that has none. */
static void refuse_handle(const char *what, pcompact_handle *handle, bool has_marking, bool has_plan) {
    pcompact_handle same = *handle;
    uint64_t words[WORDS];
    memcpy(words, copy, sizeof words);
    if (!has_marking) {
        check(is_fault(pcompact_mark(handle, words, WORDS, &it.layout, &root, 1), 12, 0, 0), what, 1);
        check(!pcompact_is_reached(handle, 0) && !pcompact_is_reached(handle, UINT64_MAX), what, 2);
    }
    if (!has_plan) {
        pcompact_objects objects = {0, WORDS, DEAD};
        check(is_fault(pcompact_redirect_objects(handle, words, WORDS, &it.layout, objects), 12, 0, 0), what, 3);
        check(pcompact_next_object(handle, 0) == UINT64_MAX, what, 4);
        check(pcompact_object_over(handle, 0) == UINT64_MAX, what, 5);
    }
    if (same.is_held) check(is_fault(pcompact_begin_marking(WORDS, handle), 12, 0, 0), what, 6);
    check(memcmp(words, copy, sizeof words) == 0 && handle->is_held == same.is_held && handle->at == same.at, what, 7);
}

/* A marking is no plan, nor a worker's part. */
static void refuse_marking(void) {
    pcompact_handle other = {false, NULL};
    pcompact_answer answer;
    uint64_t slot = root, *each = &slot;
    pcompact_slot_coding coding = pcompact_slots_by(&it.layout, WORDS, DEAD);
    session same = s;
    refused("a plan over a marking", plan(&it.heap, &s), 12);
    refused("a share of a marking", pcompact_share_plan(&s.slide.plan, &other), 12);
    refused("a begin by a marking", pcompact_begin_slide(&s.slide, s.handles, 2), 12);
    check(pcompact_new_address(&s.slide.plan, 0) == UINT64_MAX && !pcompact_is_live(&s.slide.plan, 0), "places by a marking", 0);
    check(pcompact_redirect(&s.slide.plan, &slot, 1, coding) == PCOMPACT_NOT_HELD && slot == root, "a slot by a marking", 0);
    check(pcompact_redirect_each(&s.slide.plan, &each, 1, coding) == PCOMPACT_NOT_HELD && slot == root, "slots by a marking", 0);
    check(pcompact_end_slide(&s.slide, s.handles, 1, true, &answer) == 12, "an end before a plan", 0);
    check(pcompact_begin(it.heap.words, 16, &root, 0, it.heap.settings, &s.slide.plan, 1).number == 12, "a collection over a marking", 0);
    check(is_same_session(&s, &same) && !other.is_held && is_as_it_was(), "a marking after all", 0);
    refuse_handle("by a marking", &s.slide.plan, true, false);
}

static void refuse_handles(void) {
    session empty = no_session, second, working;
    pcompact_answer answer;
    mark_blocks();
    refuse_handle("by no handle", &empty.slide.plan, false, false);
    pcompact_fault fault = pcompact_plan_marked(it.heap.words, WORDS, &it.layout, it.heap.settings, &empty.slide);
    check(is_fault(fault, 12, 0, 0) && is_same_session(&empty, &no_session), "a plan of nothing marked", fault.number);
    refuse_marking();
    plan_second(&second);
    refuse_handle("by a plan", &second.slide.plan, false, true);
    fault = pcompact_plan_marked(it.heap.words, WORDS, &it.layout, it.heap.settings, &second.slide);
    check(is_fault(fault, 12, 0, 0) && is_planned(&second, &it.heap), "a plan of a plan", fault.number);
    plan_second(&working);
    check(begin(&working, 2) == 0, "a begin", 0);
    refuse_handle("by a worker's part", &working.handles[0], false, false);
    fault = pcompact_plan_marked(it.heap.words, WORDS, &it.layout, it.heap.settings, &working.slide);
    check(is_fault(fault, 12, 0, 0) && working.slide.regions, "a plan of a slide that has begun", fault.number);
    pcompact_handle mixed[2] = {working.handles[0], s.slide.plan};
    check(pcompact_end_slide(&working.slide, mixed, 2, true, &answer) == 12, "an end by a marking", 0);
    check(pcompact_begin_marking(WORDS, &working.slide.plan).number == 0, "a marking while a slide goes on", 0);
    check(pcompact_end_slide(&working.slide, working.handles, 2, true, &answer) == 0, "an end", 0);
    check(working.slide.plan.is_held && pcompact_forget_slide(&working.slide) == 0, "a marking after the end", 0);
    check(is_same_session(&working, &no_session), "no marking after that", 0);
    check(pcompact_forget(&second.slide.plan) == 0 && !second.slide.plan.is_held, "a plan is forgotten", 0);
    check(pcompact_forget(&s.slide.plan) == 0 && !s.slide.plan.is_held && blocks_held == 0, "a marking is forgotten", 0);
    check(!pcompact_is_reached(&s.slide.plan, 0), "nothing is marked then", 0);
    free(it.heap.block);
}

static void refuse_memory(void) {
    long begins = 0, plans = 0;
    pcompact_fault fault;
    mark_blocks();
    check(pcompact_forget(&s.slide.plan) == 0 && blocks_held == 0, "a marking is forgotten", 0);
    do {
        requests_left = begins;
        fault = pcompact_begin_marking(WORDS, &s.slide.plan);
        requests_left = -1;
        check(fault.number == 0 || (is_fault(fault, 11, 0, 0) && !s.slide.plan.is_held && blocks_held == 0), "a begin", (size_t)begins);
    } while (fault.number != 0 && begins++ < 100);
    check(pcompact_mark(&s.slide.plan, it.heap.words, WORDS, &it.layout, &root, 1).number == 0, "a marking", 0);
    long held = blocks_held;
    do {
        requests_left = plans;
        fault = pcompact_plan_marked(it.heap.words, WORDS, &it.layout, it.heap.settings, &s.slide);
        requests_left = -1;
        if (fault.number != 0) check(is_fault(fault, 11, 0, 0) && is_as_it_was() && blocks_held == held, "a plan", (size_t)plans);
    } while (fault.number != 0 && plans++ < 100);
    check(begins > 2 && plans > 2 && is_planned(&s, &it.heap), "allocations", (size_t)plans);
    printf("begin: %ld allocations, plan: %ld allocations, each refused in turn\n", begins, plans);
    forget_marking("a plan after refused memory");
}

/* A page that ends or begins with so many bytes, between others that nobody can read. */
static uint8_t *map_between(size_t bytes, bool at_end) {
    enum { PAGE = 4096 };
    uint8_t *pages = mmap(NULL, 3 * PAGE, PROT_NONE, MAP_PRIVATE | MAP_ANONYMOUS, -1, 0);
    if (pages == MAP_FAILED || mprotect(pages + PAGE, PAGE, PROT_READ | PROT_WRITE) != 0) exit(2);
    return at_end ? pages + 2 * PAGE - bytes : pages + PAGE;
}

/* Nobody may write the page of these bytes, or again. */
static void protect(void *bytes, bool is_readable_only) {
    uint8_t *page = (uint8_t *)bytes - (uintptr_t)bytes % 4096;
    if (mprotect(page, 4096, is_readable_only ? PROT_READ : PROT_READ | PROT_WRITE) != 0) exit(2);
}

static void try_pages(bool at_end) {
    enum { COUNT = 200 };
    coded_heap *in = &it;
    uint64_t *roots = (uint64_t *)map_between(3 * sizeof *roots, at_end);
    pcompact_layout *layout = (pcompact_layout *)map_between(sizeof *layout, at_end);
    uint64_t *words = (uint64_t *)map_between(COUNT * sizeof *words, at_end);
    make_coded_heap(in, COUNT, 0, ANY, (pcompact_settings){3, 0});
    for (size_t i = 0; i < 3; i++) roots[i] = any_value(in);
    *layout = in->layout;
    memcpy(words, in->heap.words, COUNT * sizeof *words);
    protect(words, true);
    protect(layout, true);
    protect(roots, true);
    s = no_session;
    check(pcompact_begin_marking(COUNT, &s.slide.plan).number == 0, "a begin between pages", at_end);
    check(pcompact_mark(&s.slide.plan, words, COUNT, layout, roots, 3).number == 0, "a marking between pages", at_end);
    check(pcompact_plan_marked(words, COUNT, layout, in->heap.settings, &s.slide).number == 0, "a plan between pages", at_end);
    protect(words, false);
    pcompact_objects objects = {0, COUNT, DEAD};
    check(pcompact_redirect_objects(&s.slide.plan, words, COUNT, layout, objects).number == 0, "a redirection between pages", at_end);
    check(pcompact_forget_slide(&s.slide) == 0 && blocks_held == 0, "nothing is left between pages", at_end);
    free(in->heap.block);
}

int main(void) {
    check_hosts();
    refuse_layouts();
    refuse_headers();
    refuse_overlaps();
    refuse_numbers();
    refuse_handles();
    refuse_memory();
    for (size_t i = 0; i < 40; i++) try_pages(i % 2 == 0);
    return end_counts();
}
