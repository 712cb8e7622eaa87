/* A heap with tagged values and headers of its own, which the library marks, redirects and slides. Prints a list that outlives many
 * others.
 *
 *     cc -o tagged tagged.c $(pkg-config --cflags --libs pcompact) && ./tagged
 */
#include <inttypes.h>
#include <pcompact.h>
#include <stdio.h>
#include <stdlib.h>
#include <string.h>

/* A value is a number n as 2n + 1, or the machine address of an object's first field, or 0. A header has the type of its object in
 * bits 0 to 7, and above them the number of fields. */
typedef uint64_t value;
enum type { PAIR, TEXT };
enum { HEAP_WORDS = 1000, ROOT_ROOM = 16 };

static uint64_t words[HEAP_WORDS];
static size_t top, collections, root_count;
static value *roots[ROOT_ROOM]; /* the variables that have values */

static void check(pcompact_fault fault) {
    if (fault.number == 0) return;
    fprintf(stderr, "tagged: fault %" PRIu32 "\n", fault.number);
    exit(1);
}

static size_t collect(void) {
    const pcompact_layout layout = {
        .size_shift = 8, .size_bits = 56, .size_more = 1, /* the header is a word, too */
        .type_bits = 8, .modes = {[PAIR] = 1},            /* all fields of pairs are values, and none of texts */
        .unit = 3, .base = (uintptr_t)(words + 1),
        .filler_tag = TEXT, .filler_less = 1,
    };
    const pcompact_settings settings = {.region_log = 9, .allowance = 0};
    const pcompact_objects all = {.first = 0, .heap_words = top, .dead = 0};
    pcompact_slide slide = {.words = NULL};
    pcompact_handle worker = {.at = NULL};
    pcompact_answer answer;
    check(pcompact_begin_marking(top, &slide.plan));
    check(pcompact_mark_each(&slide.plan, words, top, &layout, roots, root_count));
    check(pcompact_plan_marked(words, top, &layout, settings, &slide));
    check(pcompact_redirect_objects(&slide.plan, words, top, &layout, all));
    pcompact_redirect_each(&slide.plan, roots, root_count, pcompact_slots_by(&layout, top, 0));
    check(pcompact_begin_slide(&slide, &worker, 1));
    pcompact_end_slide(&slide, &worker, 1, false, &answer);
    check(answer.fault);
    collections++;
    return answer.new_top;
}

static uint64_t *fields_of(value it) {
    return (uint64_t *)(uintptr_t)it;
}

static value first(value pair) {
    return fields_of(pair)[0];
}

static value rest(value pair) {
    return fields_of(pair)[1];
}

/* An object whose fields aren't filled yet. What is used after this call is in a root, or in an object that a root reaches. */
static value allocate(enum type type, size_t fields) {
    if (top + 1 + fields > HEAP_WORDS) top = collect();
    if (top + 1 + fields > HEAP_WORDS) exit(1);
    words[top] = fields << 8 | type;
    value it = (uintptr_t)(words + top + 1);
    top += 1 + fields;
    return it;
}

static value number(uint64_t n) {
    return 2 * n + 1;
}

static value new_text(const char *bytes) {
    size_t size = strlen(bytes) + 1;
    value it = allocate(TEXT, (size + 7) / 8);
    memcpy(fields_of(it), bytes, size);
    return it;
}

static value new_pair(value first, value rest) {
    roots[root_count++] = &first;
    roots[root_count++] = &rest;
    value it = allocate(PAIR, 2);
    root_count -= 2;
    fields_of(it)[0] = first;
    fields_of(it)[1] = rest;
    return it;
}

/* Each name in front of its number, and that in front of the rest. */
static value make_list(void) {
    static const char *const names[] = {"one", "two", "three", "the word behind three"};
    value list = 0;
    roots[root_count++] = &list;
    for (size_t i = 4; i > 0; i--) {
        list = new_pair(number(i), list);
        value name = new_text(names[i - 1]);
        list = new_pair(name, list);
    }
    root_count--;
    return list;
}

static void print(value list) {
    for (; list != 0; list = rest(rest(list))) {
        printf("%s %" PRIu64 "\n", (const char *)fields_of(first(list)), first(rest(list)) / 2);
    }
}

int main(void) {
    value kept = make_list();
    roots[root_count++] = &kept;
    for (size_t i = 0; i < 10000; i++) make_list();
    print(kept);
    fprintf(stderr, "%zu collections\n", collections);
    return fflush(stdout) != 0;
}
