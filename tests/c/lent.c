/* Heaps whose regions are lent: each is collected as its copy is by the calls for words in one piece, and lies where it lay.
 *
 * usage: lent [HEAPS] */
#include "pcompact.h"
#include "refusing_heap.h"
#include <stdio.h>
#include <stdlib.h>
#include <string.h>

enum { MOST_WORDS = 4096, MOST_REGIONS = MOST_WORDS / 8 + 1, NUMBERS = 512, GAP = 3 };

static int passed, failed;

static void check(int holds, const char *what, unsigned long number) {
    passed += holds;
    failed += !holds;
    if (!holds) printf("failed: %s (%lu)\n", what, number);
}

static uint64_t chance = 88172645463325252;

static uint64_t below(uint64_t limit) {
    chance ^= chance << 13;
    chance ^= chance >> 7;
    chance ^= chance << 17;
    return chance % limit;
}

/* A heap in one piece, and its live addresses or roots. */
typedef struct heap {
    uint64_t words[MOST_WORDS], tail[NUMBERS + 1];
    size_t word_count, tail_count;
    pcompact_settings settings;
    bool is_rooted;
} heap;

/* The same heap in regions that don't touch. */
typedef struct lent {
    uint64_t block[MOST_WORDS + GAP * MOST_REGIONS];
    pcompact_words parts[MOST_REGIONS], places[MOST_REGIONS];
    uint64_t tail[NUMBERS + 1];
    size_t count;
} lent;

/* Objects one after the other, some of which live. */
static void make_heap(heap *it, bool is_rooted) {
    memset(it, 0, sizeof *it);
    it->is_rooted = is_rooted;
    it->settings.region_log = 3 + (uint32_t)below(6);
    it->settings.allowance = below(4) == 0 ? below(64) : 0;
    it->word_count = (1 + below(MOST_WORDS >> it->settings.region_log)) << it->settings.region_log;
    uint64_t objects[NUMBERS], many = 1 + below(NUMBERS), top = 0;
    size_t count = 0;
    while (count < many) {
        uint64_t size = below(20) == 0 ? 1 + below(300) : 1 + below(12), references = below(size);
        if (top + size > it->word_count) break;
        it->words[top] = UINT64_C(1) << 56 | references << 32 | size;
        for (uint64_t i = 1 + references; i < size; i++) it->words[top + i] = below(UINT64_MAX);
        objects[count++] = top;
        top += size;
    }
    for (size_t i = 0; i < count; i++) {
        if (below(3) > 0) it->tail[it->tail_count++] = objects[i] + is_rooted;
    }
    for (size_t i = 0; i < count; i++) {
        uint64_t *object = it->words + objects[i], references = object[0] >> 32 & 0xffffff;
        for (uint64_t i = 1; i <= references; i++) {
            uint64_t to = is_rooted ? objects[below(count)] : it->tail_count ? it->tail[below(it->tail_count)] : 0;
            object[i] = below(4) == 0 || it->tail_count == 0 ? 0 : to + 1;
        }
    }
}

/* One word, number or setting is wrong, mostly. */
static void spoil(heap *it) {
    switch (below(6)) {
    case 0: it->words[below(it->word_count)] ^= UINT64_C(1) << below(64); break;
    case 1: it->words[below(it->word_count)] = below(it->word_count + 2); break;
    case 2: it->tail[below(it->tail_count + 1)] = below(it->word_count + 2); break;
    case 3: it->tail_count = it->tail_count > 1 ? it->tail_count - 1 : it->tail_count; break;
    case 4: it->word_count -= below(it->word_count + 1); break;
    default: it->settings.region_log = below(2) ? (uint32_t)below(17) : 21 + (uint32_t)below(UINT32_MAX - 21);
    }
}

/* Lays each region of the heap apart from the others. */
static void lay_apart(const heap *it, lent *out) {
    static uint64_t words[MOST_WORDS];
    memset(out, 0, sizeof *out);
    for (size_t i = 0; i < sizeof out->block / 8; i++) out->block[i] = 900 + i;
    memcpy(out->tail, it->tail, sizeof out->tail);
    if (it->settings.region_log < 3) return;
    memcpy(words, it->words, sizeof words);
    out->count = pcompact_cut(words, it->word_count, it->settings.region_log, out->parts);
    size_t at = 0;
    for (size_t r = 0; r < out->count; r++) {
        at += GAP;
        memcpy(out->block + at, out->parts[r].at, 8 * out->parts[r].len);
        out->parts[r].at = out->block + at;
        at += out->parts[r].len;
    }
    memcpy(out->places, out->parts, sizeof out->places);
}

static uint32_t collect(heap *it, pcompact_answer *answer) {
    return (it->is_rooted ? pcompact_collect_rooted : pcompact_collect)(it->words, it->word_count, it->tail, it->tail_count,
                                                                        it->settings, answer);
}

static uint32_t collect_lent(const heap *it, lent *out, pcompact_answer *answer) {
    return (it->is_rooted ? pcompact_collect_lent_rooted : pcompact_collect_lent)(out->parts, out->count, out->tail,
                                                                                  it->tail_count, it->settings, answer);
}

/* Whether each region is held where it was lent. */
static bool is_held_in_place(const lent *out) {
    for (size_t r = 0; r < out->count; r++) {
        const pcompact_words *now = &out->parts[r], *was = &out->places[r];
        if (now->is_held != was->is_held || now->at != was->at || now->len != was->len) return false;
    }
    return true;
}

/* The same, and the words around the regions are as they were. */
static bool is_in_place(const lent *out) {
    if (!is_held_in_place(out)) return false;
    size_t at = 0;
    for (size_t r = 0; r < out->count; r++) {
        for (size_t i = 0; i < GAP; i++, at++) {
            if (out->block[at] != 900 + at) return false;
        }
        at += out->places[r].len;
    }
    for (; at < sizeof out->block / 8; at++) {
        if (out->block[at] != 900 + at) return false;
    }
    return true;
}

static bool has_heap(const lent *out, const heap *it) {
    size_t at = 0;
    for (size_t r = 0; r < out->count; r++) {
        if (memcmp(out->places[r].at, it->words + at, 8 * out->places[r].len) != 0) return false;
        at += out->places[r].len;
    }
    return at == it->word_count && memcmp(out->tail, it->tail, sizeof out->tail) == 0;
}

static bool is_same_answer(const pcompact_answer *one, const pcompact_answer *other) {
    return one->fault.number == other->fault.number && one->fault.field == other->fault.field
        && one->fault.place == other->fault.place && one->prefix_end == other->prefix_end && one->new_top == other->new_top
        && one->filled_regions == other->filled_regions;
}

/* How many heaps were collected, and how many refused. */
static unsigned long collections, refusals;

static void compare(const heap *before, unsigned long number) {
    static heap it;
    static lent out;
    it = *before;
    lay_apart(&it, &out);
    pcompact_answer wanted, found;
    memset(&found, 0x5a, sizeof found);
    uint32_t fault = collect(&it, &wanted);
    check(collect_lent(before, &out, &found) == fault, "the number of the fault", number);
    check(is_same_answer(&found, &wanted), "the answer", number);
    check(it.settings.region_log < 3 || it.settings.region_log > 20 || has_heap(&out, &it), "the words and numbers", number);
    check(is_in_place(&out), "the places", number);
    collections += fault == 0;
    refusals += fault != 0;
}

static void compare_each(unsigned long heaps) {
    static heap it;
    for (unsigned long number = 0; number < heaps; number++) {
        make_heap(&it, number % 2 == 1);
        if (it.is_rooted || it.tail_count > 0) compare(&it, number);
        spoil(&it);
        compare(&it, number);
    }
    check(collections > heaps / 2 && refusals > heaps / 4, "heaps of both kinds", collections);
}

/* An array in which a part isn't a region: fault 4, and all is as it was. */
static void refuse_parts(bool is_rooted) {
    static heap it;
    static lent out;
    for (int wrong = 0; wrong < 6; wrong++) {
        do {
            make_heap(&it, is_rooted);
        } while (it.word_count >> it.settings.region_log < 3);
        lay_apart(&it, &out);
        size_t r = wrong % 3 == 0 ? 0 : wrong % 3 == 1 ? out.count - 1 : out.count / 2;
        if (wrong < 3) {
            memset(&out.parts[r], 0, sizeof out.parts[r]);
        } else {
            out.parts[r].len--;
        }
        memcpy(out.places, out.parts, sizeof out.places);
        static lent same;
        same = out;
        pcompact_answer answer;
        check(collect_lent(&it, &out, &answer) == 4 && answer.fault.number == 4, "a part that is no region", (unsigned long)wrong);
        check(answer.fault.field == 0 && answer.fault.place == 0 && answer.new_top == 0, "no figures", (unsigned long)wrong);
        check(is_held_in_place(&out), "the places", (unsigned long)wrong);
        check(memcmp(out.block, same.block, sizeof out.block) == 0, "the words", (unsigned long)wrong);
        check(memcmp(out.tail, same.tail, sizeof out.tail) == 0, "the numbers", (unsigned long)wrong);
    }
}

/* Each allocation is refused in turn: fault 11, and all is as it was. */
static void refuse_memory(bool is_rooted) {
    static heap it, after;
    static lent out;
    do {
        make_heap(&it, is_rooted);
    } while (it.tail_count < 100);
    after = it;
    pcompact_answer answer, wanted;
    check(collect(&after, &wanted) == 0, "a collection", 0);
    for (long allowed = 0;; allowed++) {
        lay_apart(&it, &out);
        requests_left = allowed;
        uint32_t fault = collect_lent(&it, &out, &answer);
        requests_left = -1;
        check(blocks_held == 0, "no block is left", (unsigned long)allowed);
        check(is_in_place(&out), "the places", (unsigned long)allowed);
        if (fault == 0) {
            check(has_heap(&out, &after) && is_same_answer(&answer, &wanted), "memory for all", (unsigned long)allowed);
            check(allowed > 10, "it takes memory", (unsigned long)allowed);
            return;
        }
        check(fault == 11 && answer.fault.number == 11, "fault 11", (unsigned long)allowed);
        check(has_heap(&out, &it), "all is as it was", (unsigned long)allowed);
    }
}

int main(int argc, char **argv) {
    compare_each(argc > 1 ? strtoul(argv[1], NULL, 10) : 1000);
    for (int kind = 0; kind < 2; kind++) {
        refuse_parts(kind == 1);
        refuse_memory(kind == 1);
    }
    printf("%lu collected, %lu refused; %d passed, %d failed\n", collections, refusals, passed, failed);
    return failed != 0;
}
