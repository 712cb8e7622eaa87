/* Where the words of a heap will go, asked by the handles of a collection before anything moves, compared with where its end says
 * that the objects are; and slots outside of the heap, redirected by several codings.
 *
 * usage: places */
#include "checks.h"
#include "pcompact.h"
#include <stdbool.h>
#include <stdio.h>
#include <string.h>

enum { REGION_LOG = 3, CELL = 5, CELLS = 25, WORDS = 128, WORKERS = 2, LIVE = 8, DEAD = 77 };

static const pcompact_settings settings = {REGION_LOG, 0};

/* A heap of cells of which each third lives, and where its words go by its end: UINT64_MAX for the dead ones. */
typedef struct heap {
    uint64_t words[WORDS], list[LIVE], to[WORDS];
    pcompact_handle handles[WORKERS];
} heap;

static void make_heap(heap *it) {
    memset(it, 0, sizeof *it);
    for (size_t cell = 0; cell < CELLS; cell++) it->words[cell * CELL] = (UINT64_C(1) << 56) + CELL;
    for (size_t i = 0; i < LIVE; i++) it->list[i] = (3 * i + 1) * CELL;
}

static bool begin(heap *it) {
    return pcompact_begin(it->words, WORDS, it->list, LIVE, settings, it->handles, WORKERS).number == 0;
}

/* Ends the collection, and notes where each word went by the new list. */
static bool end(heap *it) {
    uint64_t old[LIVE];
    pcompact_answer answer;
    memcpy(old, it->list, sizeof old);
    memset(it->to, 0xff, sizeof it->to);
    if (pcompact_end(it->handles, WORKERS, it->words, WORDS, it->list, LIVE, &answer) != 0) return false;
    for (size_t i = 0; i < LIVE; i++) {
        for (size_t k = 0; k < CELL; k++) it->to[old[i] + k] = it->list[i] + k;
    }
    return true;
}

static void new_addresses_are_those_of_the_end(void) {
    heap it;
    uint64_t asked[WORDS];
    make_heap(&it);
    check(begin(&it), "begin");
    for (uint64_t a = 0; a < WORDS; a++) asked[a] = pcompact_new_address(&it.handles[a % WORKERS], a);
    check(pcompact_new_address(it.handles, WORDS) == UINT64_MAX, "no new address behind the heap");
    check(pcompact_new_address(it.handles, UINT64_MAX) == UINT64_MAX, "no new address at the greatest address");
    pcompact_work_all(it.handles);
    check(pcompact_new_address(it.handles, it.list[1]) == asked[it.list[1]], "new addresses stay during the work");
    check(end(&it), "end");
    check(memcmp(asked, it.to, sizeof asked) == 0, "new addresses are those of the end");
    check(pcompact_new_address(it.handles, 5) == UINT64_MAX, "no new address by a handle that isn't held");
}

/* Redirects slots that lead to each word, and some that lead nowhere, by a coding. */
static void slots_are_redirected(uint64_t base, uint32_t unit) {
    heap it;
    uint64_t step = UINT64_C(1) << (unit % 64), slots[WORDS + 4], old[WORDS + 4];
    pcompact_slot_coding coding = {base, WORDS, DEAD, unit};
    make_heap(&it);
    check(begin(&it), "begin");
    for (uint64_t a = 0; a <= WORDS; a++) slots[a] = base + a * step;
    slots[WORDS + 1] = base - 1;
    slots[WORDS + 2] = base + step * CELL + step / 2 + (step == 1) * WORDS;
    slots[WORDS + 3] = 0;
    memcpy(old, slots, sizeof old);
    check(pcompact_redirect(it.handles, slots, WORDS + 4, coding) == PCOMPACT_SETTLED, "redirect");
    check(end(&it), "end");
    bool right = true;
    for (uint64_t a = 0; a < WORDS; a++) right &= slots[a] == (it.to[a] == UINT64_MAX ? DEAD : base + it.to[a] * step);
    check(right, "slots that lead to words are redirected");
    check(memcmp(slots + WORDS, old + WORDS, 4 * sizeof *slots) == 0, "slots that lead nowhere stay");
    check(pcompact_redirect(it.handles, slots, 1, coding) == PCOMPACT_NOT_HELD, "no slot is redirected by a handle that isn't held");
}

/* More slots than are redirected at once: some lead to each word. */
enum { MANY = 5 * WORDS + 3 };

/* Slots that lie apart become what they do side by side, and stay without a handle that is held. Few words have slots here. */
static void slots_apart_are_redirected(void) {
    heap it;
    uint64_t slots[MANY], apart[2 * MANY], *each[MANY], base = 4096;
    pcompact_slot_coding coding = {base, 2 * CELL, DEAD, 3};
    make_heap(&it);
    for (uint64_t i = 0; i < MANY; i++) {
        slots[i] = base + 8 * (i % WORDS);
        each[i] = &apart[2 * i];
        apart[2 * i] = apart[2 * i + 1] = slots[i];
    }
    check(pcompact_redirect_each(it.handles, each, MANY, coding) == PCOMPACT_NOT_HELD, "slots apart by no handle");
    check(begin(&it), "begin");
    check(pcompact_redirect(it.handles, slots, MANY, coding) == PCOMPACT_SETTLED, "slots side by side");
    check(pcompact_redirect_each(it.handles, each, MANY, coding) == PCOMPACT_SETTLED, "slots apart");
    bool same = true, kept = true, behind = true;
    for (uint64_t i = 0; i < MANY; i++) {
        same &= apart[2 * i] == slots[i];
        kept &= apart[2 * i + 1] == base + 8 * (i % WORDS);
        behind &= i % WORDS < 2 * CELL || slots[i] == base + 8 * (i % WORDS);
    }
    check(same, "slots apart become the same");
    check(kept, "what lies between them stays");
    check(behind, "slots that lead behind the words of the coding stay");
    check(slots[CELL] != base + 8 * CELL, "a slot is redirected");
    check(end(&it), "end");
}

int main(void) {
    new_addresses_are_those_of_the_end();
    slots_apart_are_redirected();
    slots_are_redirected(4096, 3);
    slots_are_redirected(1, 0);
    slots_are_redirected(4096, 64 + 3);
    slots_are_redirected(UINT64_C(1) << 40 | 3, 2);
    return end_checks();
}
