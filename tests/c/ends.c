/* Ends of another kind than the begin, and ends with words, regions or handles of another collection: each is fault 12 and leaves
 * all as it was, so that the right end still works.
 *
 * usage: ends */
#include "pcompact.h"
#include "refusing_heap.h"
#include <stdbool.h>
#include <stdio.h>
#include <string.h>

enum { REGION_LOG = 3, SIZE = 1 << REGION_LOG, CELL = 5, CELLS = 25, WORDS = 128, REGIONS = WORDS / SIZE, WORKERS = 2 };

static int passed, failed;

static void check(bool holds, const char *what, const char *began, const char *ended) {
    passed += holds;
    failed += !holds;
    if (!holds) printf("failed: %s (begun %s, ended %s)\n", what, began, ended);
}

/* Where the workers have the words: in a copy, in regions that the host lends, or in its own words in place. */
enum kind { COPIED, LENT, IN_PLACE, KINDS };

static const char *const names[KINDS] = {"over a copy", "over lent words", "in place"};

/* A heap, and what the host keeps of its collection. An end of a copy writes the words to `out`. */
typedef struct collection {
    enum kind kind;
    bool is_rooted;
    uint64_t words[WORDS], out[WORDS], list[CELLS];
    size_t list_count;
    pcompact_words parts[REGIONS];
    pcompact_regions regions;
    pcompact_handle handles[WORKERS];
} collection;

static const pcompact_settings settings = {REGION_LOG, 0};

/* Cells of which some live, each with a reference to a later cell that lives and one to an earlier cell. `mark` tells one heap
 * from another. */
static void make_heap(collection *it, enum kind kind, bool is_rooted, uint64_t mark) {
    memset(it, 0, sizeof *it);
    it->kind = kind;
    it->is_rooted = is_rooted;
    for (size_t cell = 0; cell < CELLS; cell++) {
        uint64_t *words = it->words + cell * CELL;
        words[0] = UINT64_C(1) << 56 | UINT64_C(2) << 32 | CELL;
        if (cell % 3 == 1) {
            words[1] = cell + 3 < CELLS ? (cell + 3) * CELL + 1 : 0;
            words[2] = CELL + 1;
        }
        words[3] = mark + cell;
        if (is_rooted ? cell == 1 : cell % 3 == 1) it->list[it->list_count++] = cell * CELL + is_rooted;
    }
}

static uint32_t begin(collection *it) {
    bool rooted = it->is_rooted;
    if (it->kind == IN_PLACE) {
        return (rooted ? pcompact_begin_in_place_rooted : pcompact_begin_in_place)(
            it->words, WORDS, it->list, it->list_count, settings, it->handles, WORKERS, &it->regions).number;
    }
    if (it->kind == COPIED) {
        return (rooted ? pcompact_begin_rooted : pcompact_begin)(it->words, WORDS, it->list, it->list_count, settings,
                                                                 it->handles, WORKERS).number;
    }
    pcompact_cut(it->words, WORDS, REGION_LOG, it->parts);
    return (rooted ? pcompact_begin_lent_rooted : pcompact_begin_lent)(it->parts, REGIONS, it->list, it->list_count, settings,
                                                                       it->handles, WORKERS).number;
}

/* Ends the collection of these handles, into what the host keeps of this one. */
static uint32_t end(enum kind kind, pcompact_handle *handles, collection *into, pcompact_answer *answer) {
    uint64_t *list = into->list;
    size_t count = into->list_count;
    if (kind == COPIED) return pcompact_end(handles, WORKERS, into->out, WORDS, list, count, answer);
    if (kind == IN_PLACE) {
        pcompact_regions parts = {into->parts, REGIONS};
        return pcompact_end_in_place(handles, WORKERS, into->regions.at ? &into->regions : &parts, list, count, answer);
    }
    pcompact_words *lent = into->regions.at ? into->regions.at : into->parts;
    return pcompact_end_lent(handles, WORKERS, lent, REGIONS, list, count, answer);
}

static bool are_same_words(const pcompact_words *one, const pcompact_words *other) {
    for (size_t r = 0; r < REGIONS; r++) {
        if (one[r].is_held != other[r].is_held || one[r].at != other[r].at || one[r].len != other[r].len) return false;
    }
    return true;
}

static bool are_same_handles(const pcompact_handle *one, const pcompact_handle *other) {
    for (size_t i = 0; i < WORKERS; i++) {
        if (one[i].is_held != other[i].is_held || one[i].at != other[i].at) return false;
    }
    return true;
}

/* What lies between the fields of a struct doesn't count. */
static bool is_same(const collection *one, const collection *other) {
    return memcmp(one->words, other->words, sizeof one->words) == 0 && memcmp(one->out, other->out, sizeof one->out) == 0
        && memcmp(one->list, other->list, sizeof one->list) == 0 && are_same_words(one->parts, other->parts)
        && one->regions.at == other->regions.at && one->regions.count == other->regions.count
        && are_same_handles(one->handles, other->handles);
}

/* An end of this kind by these handles into this collection is fault 12, and leaves all as it was. */
static void refuse(const char *what, enum kind kind, pcompact_handle *handles, collection *into) {
    collection same = *into;
    pcompact_handle held[WORKERS];
    pcompact_answer answer;
    memcpy(held, handles, sizeof held);
    memset(&answer, 0x5a, sizeof answer);
    uint32_t fault = end(kind, handles, into, &answer);
    bool has_answer = answer.fault.number == 12 && answer.fault.field == 0 && answer.fault.place == 0 && answer.prefix_end == 0
        && answer.new_top == 0 && answer.filled_regions == 0;
    check(fault == 12 && has_answer, what, names[into->kind], names[kind]);
    check(is_same(into, &same) && are_same_handles(handles, held), what, names[into->kind], names[kind]);
}

static bool is_over(const collection *it) {
    for (size_t i = 0; i < WORKERS; i++) {
        if (it->handles[i].is_held) return false;
    }
    for (size_t r = 0; r < REGIONS && it->kind == LENT; r++) {
        if (!it->parts[r].is_held || it->parts[r].at != it->words + r * SIZE) return false;
    }
    return !it->regions.at && it->regions.count == 0;
}

/* The right end leaves what the call that copies makes of the same heap. */
static void end_well(collection *it, uint64_t mark) {
    static collection wanted;
    pcompact_answer answer, of_wanted;
    make_heap(&wanted, it->kind, it->is_rooted, mark);
    (it->is_rooted ? pcompact_collect_rooted : pcompact_collect)(wanted.words, WORDS, wanted.list, wanted.list_count, settings,
                                                                 &of_wanted);
    check(end(it->kind, it->handles, it, &answer) == 0 && answer.new_top == of_wanted.new_top, "the right end", names[it->kind], "so");
    const uint64_t *words = it->kind == COPIED ? it->out : it->words;
    check(memcmp(words, wanted.words, sizeof wanted.words) == 0, "its words", names[it->kind], "so");
    check(memcmp(it->list, wanted.list, sizeof wanted.list) == 0 && is_over(it), "its list", names[it->kind], "so");
}

/* Each end of another kind, before any work and after it. */
static void refuse_kinds(enum kind kind, bool is_rooted) {
    for (int works = 0; works < 2; works++) {
        static collection it;
        make_heap(&it, kind, is_rooted, 100);
        check(begin(&it) == 0, "a begin", names[kind], "not");
        if (works) check(pcompact_work_all(&it.handles[0]) == PCOMPACT_SETTLED, "work", names[kind], "not");
        for (int other = 0; other < KINDS; other++) {
            if (other != (int)kind) refuse("an end of another kind", other, it.handles, &it);
        }
        end_well(&it, 100);
    }
}

/* The handles of one collection with what the host keeps of another. An end of a copy writes to any words. */
static void refuse_swapped(collection *one, collection *other) {
    for (int kind = 0; kind < KINDS; kind++) {
        if (kind != COPIED || one->kind != COPIED) refuse("the words of another", kind, one->handles, other);
    }
}

/* A handle of each. */
static void refuse_mixed(collection *one, collection *other) {
    pcompact_handle mixed[WORKERS] = {one->handles[0], other->handles[1]};
    for (int kind = 0; kind < KINDS; kind++) {
        refuse("handles of both", kind, mixed, one);
        refuse("handles of both", kind, mixed, other);
    }
    one->handles[0] = mixed[0];
    other->handles[1] = mixed[1];
}

static void refuse_two(enum kind kind, enum kind other_kind, bool is_rooted) {
    static collection one, other;
    make_heap(&one, kind, is_rooted, 100);
    make_heap(&other, other_kind, is_rooted, 500);
    check(begin(&one) == 0 && begin(&other) == 0, "two begins", names[kind], names[other_kind]);
    check(pcompact_work_all(&other.handles[1]) == PCOMPACT_SETTLED, "work of one", names[kind], names[other_kind]);
    refuse_swapped(&one, &other);
    refuse_swapped(&other, &one);
    refuse_mixed(&one, &other);
    end_well(&other, 500);
    refuse("handles that are over", kind, other.handles, &one);
    end_well(&one, 100);
}

int main(void) {
    for (int rooted = 0; rooted < 2; rooted++) {
        for (int kind = 0; kind < KINDS; kind++) {
            refuse_kinds(kind, rooted);
            for (int other = 0; other < KINDS; other++) refuse_two(kind, other, rooted);
        }
    }
    check(blocks_held == 0, "a block is left", "all", "all");
    printf("%d passed, %d failed\n", passed, failed);
    return failed != 0;
}
