#include "opaque.h"
#include "refusing_heap.h"
#include <stdio.h>
#include <stdlib.h>
#include <string.h>

static int passed, failed;

bool check(bool holds, const char *what, size_t number) {
    passed += holds;
    failed += !holds;
    if (!holds) printf("failed: %s (%zu)\n", what, number);
    return holds;
}

int end_counts(void) {
    check(blocks_held == 0, "a block is left in all", (size_t)blocks_held);
    printf("%d passed, %d failed\n", passed, failed);
    return failed != 0;
}

static uint64_t chance = 88172645463325252;

void take_seed(uint64_t seed) {
    chance ^= UINT64_C(0x9e3779b97f4a7c15) * seed;
}

uint64_t any_word(void) {
    chance ^= chance << 13;
    chance ^= chance >> 7;
    chance ^= chance << 17;
    return chance;
}

uint64_t below(uint64_t limit) {
    return any_word() % limit;
}

void make_heap(heap *it, size_t word_count, size_t guard, pcompact_settings settings) {
    it->block_count = word_count + 2 * guard;
    it->block = malloc(8 * it->block_count);
    if (!it->block) exit(2);
    it->words = it->block + guard;
    it->word_count = word_count;
    it->live_count = 0;
    it->settings = settings;
    for (size_t i = 0; i < it->block_count; i++) it->block[i] = any_word();
}

void add_object(heap *it, uint64_t at, uint64_t size) {
    it->live[it->live_count] = at;
    it->sizes[it->live_count++] = (uint32_t)size;
}

/* The greatest multiple of a region's words below which few words are dead, at most the end of the last object. */
static uint64_t find_prefix_end(const heap *it, const uint64_t *to) {
    uint64_t size = UINT64_C(1) << it->settings.region_log, dead = 0, best = 0, last = it->live_count - 1;
    uint64_t last_end = it->live_count > 0 ? it->live[last] + it->sizes[last] : 0;
    for (uint64_t end = size; end <= last_end; end += size) {
        for (uint64_t a = end - size; a < end; a++) dead += to[a] == UINT64_MAX;
        if (dead <= it->settings.allowance) best = end;
    }
    return best;
}

void want(const heap *it, bool clears, wanted *out) {
    uint64_t *words = out->block + (it->words - it->block);
    memcpy(out->block, it->block, 8 * it->block_count);
    memset(out->to, 0xff, sizeof out->to);
    for (size_t i = 0; i < it->live_count; i++) memset(out->to + it->live[i], 0, 8 * it->sizes[i]);
    uint64_t next = out->prefix_end = find_prefix_end(it, out->to);
    for (size_t i = 0; i < it->live_count; i++) {
        uint64_t from = it->live[i], at = from < out->prefix_end ? from : next, end = at + it->sizes[i];
        memmove(words + at, words + from, 8 * it->sizes[i]);
        for (uint64_t k = 0; k < it->sizes[i]; k++) out->to[from + k] = at + k;
        next = end > next ? end : next;
    }
    out->new_top = next;
    if (clears) memset(words + next, 0, 8 * (it->word_count - next));
}

const session no_session;

pcompact_fault plan(heap *it, session *s) {
    return pcompact_plan(it->words, it->word_count, it->live, it->sizes, it->live_count, it->settings, &s->slide);
}

uint32_t begin(session *s, size_t workers) {
    return pcompact_begin_slide(&s->slide, s->handles, workers).number;
}

size_t held_handles(const session *s) {
    size_t held = 0;
    for (size_t i = 0; i < MOST_WORKERS + 1; i++) held += s->handles[i].is_held;
    return held;
}

bool is_same_session(const session *one, const session *other) {
    const pcompact_slide *a = &one->slide, *b = &other->slide;
    for (size_t i = 0; i < MOST_WORKERS + 1; i++) {
        if (one->handles[i].is_held != other->handles[i].is_held) return false;
    }
    return a->plan.is_held == b->plan.is_held && a->words == b->words && a->word_count == b->word_count
        && a->region_log == b->region_log && a->regions == b->regions && a->region_count == b->region_count && a->last == b->last;
}

bool is_planned(const session *s, const heap *it) {
    session same = no_session;
    same.slide.plan.is_held = true;
    same.slide.words = it->words;
    same.slide.word_count = it->word_count;
    same.slide.region_log = it->settings.region_log;
    return is_same_session(s, &same);
}

bool leads_to(pcompact_handle *handle, const heap *it, const uint64_t *to) {
    static const uint64_t behind[] = {0, 1, 7, 511, 512, 1 << 20};
    for (uint64_t a = 0; a < it->word_count; a++) {
        if (pcompact_new_address(handle, a) != to[a] || pcompact_is_live(handle, a) != (to[a] != UINT64_MAX)) return false;
    }
    for (size_t i = 0; i < sizeof behind / sizeof *behind; i++) {
        if (pcompact_is_live(handle, it->word_count + behind[i])) return false;
    }
    return !pcompact_is_live(handle, UINT64_MAX);
}

void end_well(const heap *it, session *s, size_t workers, bool clears, const wanted *to, size_t number) {
    pcompact_answer answer;
    uint64_t size = UINT64_C(1) << it->settings.region_log;
    memset(&answer, 0x5a, sizeof answer);
    check(pcompact_end_slide(&s->slide, s->handles, workers, clears, &answer) == 0 && answer.fault.number == 0, "an end", number);
    check(answer.prefix_end == to->prefix_end && answer.new_top == to->new_top, "the new top", number);
    check(answer.filled_regions == (to->new_top + size - 1) / size, "the regions that are filled", number);
    check(memcmp(it->block, to->block, 8 * it->block_count) == 0, "the words", number);
    check(is_same_session(s, &no_session), "no slide and free handles", number);
}

void add_objects(heap *it, enum kind kind) {
    size_t words = it->word_count;
    if (kind == ONE_OBJECT) add_object(it, 0, words);
    if (kind == FIRST_WORD || kind == LAST_WORD) add_object(it, kind == LAST_WORD ? words - 1 : 0, 1);
    if (kind == EACH_WORD || kind == EACH_SECOND_WORD) {
        for (size_t a = kind == EACH_SECOND_WORD; a < words; a += kind == EACH_WORD ? 1 : 2) add_object(it, a, 1);
    }
    uint64_t most = kind != SCATTERED ? 12 : below(10) == 0 ? 1 : below(5) == 0 ? 600 : 12, gap = below(3) == 0 ? 40 : 4;
    for (uint64_t at = kind == SCATTERED ? below(gap) : 0; kind >= OBJECTS_IN_A_ROW && at < words;) {
        uint64_t room = words - at, size = 1 + below(room < most ? room : most);
        add_object(it, at, size);
        at += size + (kind == SCATTERED ? below(gap) * below(2) : 0);
    }
}
