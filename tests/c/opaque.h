/* What the tests of slides share: a count of checks, heaps of opaque objects, what a slide must make of one by a plain model, and
 * what a host keeps of a slide. */
#ifndef OPAQUE_H
#define OPAQUE_H

#include "pcompact.h"

enum { MOST_WORDS = 3000, GUARD = 8, MOST_WORKERS = 64 };

/* Counts a check, and says what it was if it doesn't hold. Returns whether it does. */
bool check(bool holds, const char *what, size_t number);

/* Counts that no block of memory is left, and prints how many checks held and how many didn't. Returns the exit status. */
int end_counts(void);

/* Begins another row of numbers. */
void take_seed(uint64_t seed);

uint64_t any_word(void);

uint64_t below(uint64_t limit);

/* A heap, words of the host on both sides, and where its live objects lie. */
typedef struct heap {
    uint64_t *block, *words;
    size_t block_count, word_count, live_count;
    uint64_t live[MOST_WORDS];
    uint32_t sizes[MOST_WORDS];
    pcompact_settings settings;
} heap;

/* Makes a heap without objects, whose words are any, between `guard` words on each side. Without these a tool that watches memory
 * sees what lies behind the heap. The caller frees the block. */
void make_heap(heap *it, size_t word_count, size_t guard, pcompact_settings settings);

void add_object(heap *it, uint64_t at, uint64_t size);

/* How objects lie in a heap. */
enum kind { NO_OBJECT, EACH_WORD, EACH_SECOND_WORD, ONE_OBJECT, FIRST_WORD, LAST_WORD, OBJECTS_IN_A_ROW, SCATTERED, KINDS };

void add_objects(heap *it, enum kind kind);

/* What a slide must make of a heap: all words of its block, and where each word of the heap goes, or UINT64_MAX if no object has
 * it. */
typedef struct wanted {
    uint64_t block[MOST_WORDS + 2 * GUARD], to[MOST_WORDS], prefix_end, new_top;
} wanted;

/* Moves one object after the other. */
void want(const heap *it, bool clears, wanted *out);

/* What a host keeps of a slide. */
typedef struct session {
    pcompact_slide slide;
    pcompact_handle handles[MOST_WORKERS + 1];
} session;

extern const session no_session;

pcompact_fault plan(heap *it, session *s);

uint32_t begin(session *s, size_t workers);

size_t held_handles(const session *s);

bool is_same_session(const session *one, const session *other);

/* Whether the slide of this heap is planned and hasn't begun. */
bool is_planned(const session *s, const heap *it);

/* Whether the handle says of each address, and of some behind the heap, where its word goes. */
bool leads_to(pcompact_handle *handle, const heap *it, const uint64_t *to);

/* Ends a slide, and checks that it makes what is wanted. */
void end_well(const heap *it, session *s, size_t workers, bool clears, const wanted *to, size_t number);

#endif
