/* The collections of Scheme 48 1.9 by libpcompact, in place and by several threads. tests/hosts/scheme48.sh builds Scheme 48's
 * virtual machine with it: its heap has one space in place of two, and the functions here instead of those that copy.
 *
 * This file marks Scheme 48's objects, lists where they lie, and redirects what leads to them before anything moves. The library
 * says where each goes, and moves it as it is: PCOMPACT_WORKERS says how many threads share that. */
#include "scheme48vm.h"
#include "scheme48heap.h"
#include "io.h"
#include <pcompact.h>
#include <pthread.h>
#include <sched.h>
#include <stdio.h>
#include <stdlib.h>

/* A region of 512 KiB suits a heap of any size that the library takes. */
enum { REGION_LOG = 16, MAX_WORKERS = 64 };

/* Types of objects, of which those from STRING on have bytes. */
enum { SYMBOL = 1, CONTINUATION = 10, WEAK_POINTER = 13, BINDING = 14, LINK_CELL = 15, STRING = 16 };

/* A value is the address of its object's first field with a tag. A link of a table of symbols or bindings is one without it. */
enum { VALUE_TAG = 3, LINK_TAG = 0, FALSE_VALUE = 1 };

/* Variables of Scheme 48's heap and machine, a clock, and the heap's own trace, which hands the slots of a continuation or a link
 * cell to the function here. */
extern char *Snewspace_beginS, *s48_ShpS, *Slast_code_pointer_resumedS;
extern long Sgc_countS, Sgc_secondsS, Sgc_msecondsS, Slast_code_calledS, Sfinalizer_alistS;
long s48_run_time(long *milliseconds);
void own_trace_locationsB(char *from, char *to);

/* The words in use during a collection, and a bit for each: whether a live object begins there. */
static uint64_t *words, *marks;
static size_t word_count, live_count, live_words;

/* Planned once all is marked. */
static pcompact_slide slide;

/* Objects that are marked and whose fields aren't yet, and marked ones of two types; slots outside of the heap with values, and
 * with pointers into code. */
static struct list {
    long *items;
    size_t count, room;
} unscanned, weak_pointers, link_cells, roots, code_pointers;

static void check(pcompact_fault fault) {
    if (fault.number != 0) ps_error("pcompact: fault", 1, (long)fault.number);
}

static void *have(void *room) {
    if (!room) ps_error("pcompact: out of memory", 0);
    return room;
}

static void push(struct list *list, long item) {
    if (list->count == list->room) {
        list->room = 2 * list->room + 1024;
        list->items = have(realloc(list->items, list->room * sizeof *list->items));
    }
    list->items[list->count++] = item;
}

static long *fields_of(long value) { return (long *)(value - VALUE_TAG); }
static uint64_t *object_of(long value) { return (uint64_t *)fields_of(value) - 1; }
static size_t address_of(const void *slot) { return (uint64_t *)slot - words; }

/* A header says the type, and the bytes behind it. */
static unsigned type_of(uint64_t header) { return header >> 2 & 31; }
static size_t size_of(uint64_t header) { return 1 + ((header >> 8) + 7) / sizeof(uint64_t); }

static int is_in_heap(long value) { return (value & 3) == VALUE_TAG && address_of(object_of(value)) < word_count; }

static int is_marked(size_t address) { return marks[address / 64] >> address % 64 & 1; }

char s48_extantP(long value) { return !is_in_heap(value) || is_marked(address_of(object_of(value))); }

static void mark(long value) {
    if (s48_extantP(value)) return;
    size_t address = address_of(object_of(value));
    marks[address / 64] |= UINT64_C(1) << address % 64;
    live_count++;
    live_words += size_of(words[address]);
    if (type_of(words[address]) < STRING) push(&unscanned, value);
}

/* Slots with this tag that lead to objects lead to where these will be; all others stay. Each slot comes here once, as old and
 * new places overlap: C code registers a variable once. */
static void redirect(long *slots, size_t count, unsigned tag) {
    uintptr_t base = (uintptr_t)(words + 1) + tag;
    pcompact_slot_coding coding = {.base = base, .word_count = word_count, .dead = FALSE_VALUE, .unit = 3};
    pcompact_redirect(&slide.plan, (uint64_t *)slots, count, coding);
}

/* Marks what slots lead to. Once there is a plan, redirects them. */
static void visit(long *slots, size_t count) {
    if (slide.plan.is_held) {
        redirect(slots, count, VALUE_TAG);
    } else {
        for (size_t i = 0; i < count; i++) mark(slots[i]);
    }
}

/* What the machine's walks do with a value, with a slot outside of the heap, and with a pointer into code. */
long s48_trace_value(long value) {
    visit(&value, 1);
    return value;
}

long trace_root(long *slot) {
    if (word_count > 0) push(&roots, (long)slot);
    mark(*slot);
    return *slot;
}

void trace_code(char *slot) { push(&code_pointers, (long)slot); }

/* The same with slots on the stack, or in an object that the heap's own trace has. */
void s48_trace_locationsB(char *from, char *to) {
    int is_root = address_of(from) >= word_count;
    if (!is_root) visit((long *)from, (to - from) / sizeof(long));
    for (; is_root && from < to; from += sizeof(long)) trace_root((long *)from);
}

/* Only the heap knows which slots of a continuation are in use. */
static void visit_fields(uint64_t *object) {
    unsigned type = type_of(*object);
    if (type == CONTINUATION) own_trace_locationsB((char *)object, (char *)(object + 1));
    else if (type < STRING) visit((long *)(object + 1), size_of(*object) - 1);
}

void s48_trace_stob_contentsB(long value) { visit_fields(object_of(value)); }

static void scan(long value) {
    unsigned type = type_of(*object_of(value));
    if (type == LINK_CELL) push(&link_cells, value);
    if (type == WEAK_POINTER) push(&weak_pointers, value);
    else visit_fields(object_of(value));
}

/* Marks what marked objects lead to, and clears weak pointers to all others. */
static void mark_reached(void) {
    while (unscanned.count > 0) scan(unscanned.items[--unscanned.count]);
    while (weak_pointers.count > 0) {
        long *field = fields_of(weak_pointers.items[--weak_pointers.count]);
        if (!s48_extantP(*field)) *field = FALSE_VALUE;
    }
}

/* Marks what the roots reach, and then what the machine keeps for finalizers. Its tables lose what isn't marked then. These are
 * told whether a tenth of the heap is free. */
static void mark_all(void) {
    words = (uint64_t *)Snewspace_beginS;
    word_count = (s48_ShpS - Snewspace_beginS) / sizeof(uint64_t);
    marks = have(calloc(word_count / 64 + 1, sizeof *marks));
    live_count = live_words = link_cells.count = roots.count = code_pointers.count = 0;
    s48_gc_root();
    mark_reached();
    s48_post_gc_cleanup(1, s48_available() + (long)(word_count - live_words) < s48_max_heap_size() / 10);
    mark_reached();
    trace_root(&Slast_code_calledS);
    trace_root(&Sfinalizer_alistS);
    trace_code((char *)&Scode_pointerS);
    trace_code((char *)&Slast_code_pointer_resumedS);
}

/* The first live object at an address or behind it. */
static size_t next_live(size_t address) {
    for (; address < word_count; address = (address | 63) + 1) {
        uint64_t bits = marks[address / 64] >> address % 64;
        if (bits) return address + __builtin_ctzll(bits);
    }
    return address;
}

/* With an allowance of 0 all objects slide, each to where those before it end. */
static void plan_slide(void) {
    pcompact_settings settings = {.region_log = REGION_LOG, .allowance = 0};
    uint64_t *live = have(calloc(live_count + 1, sizeof *live));
    uint32_t *sizes = have(calloc(live_count + 1, sizeof *sizes));
    size_t count = 0;
    for (size_t at = next_live(0); at < word_count; at = next_live(at + 1)) {
        if (size_of(words[at]) > UINT32_MAX) ps_error("pcompact: an object is too large", 0);
        live[count] = at;
        sizes[count++] = size_of(words[at]);
    }
    check(pcompact_plan(words, word_count, live, sizes, count, settings, &slide));
    free(live);
    free(sizes);
}

/* In symbols and bindings the last field links those of a table. */
static void redirect_objects(void) {
    for (size_t at = next_live(0); at < word_count; at = next_live(at + 1)) {
        long *last = (long *)&words[at + size_of(words[at]) - 1];
        visit_fields(&words[at]);
        if (type_of(words[at]) == SYMBOL || type_of(words[at]) == BINDING) redirect(last, 1, LINK_TAG);
    }
}

/* Redirects a pointer into code, which keeps its distance. */
static void redirect_code(char **pointer) {
    size_t distance = *pointer - (char *)words;
    uint64_t address = pcompact_new_address(&slide.plan, distance / sizeof(uint64_t));
    if (address != UINT64_MAX) *pointer = (char *)(words + address) + distance % sizeof(uint64_t);
}

static void redirect_roots(void) {
    const long tables[] = {s48_symbol_table(), s48_imported_bindings(), s48_exported_bindings()};
    for (size_t i = 0; i < 3; i++) redirect(fields_of(tables[i]), size_of(*object_of(tables[i])) - 1, LINK_TAG);
    for (size_t i = 0; i < roots.count; i++) redirect((long *)roots.items[i], 1, VALUE_TAG);
    redirect(s48_channels(), s48_channel_count(), VALUE_TAG);
    for (size_t i = 0; i < link_cells.count; i++) redirect(&link_cells.items[i], 1, VALUE_TAG);
    s48_trace_external_calls();
    for (size_t i = 0; i < code_pointers.count; i++) redirect_code((char **)code_pointers.items[i]);
}

static size_t worker_count(void) {
    const char *text = getenv("PCOMPACT_WORKERS");
    size_t count = text ? strtoul(text, NULL, 10) : 1;
    return count < 1 ? 1 : count < MAX_WORKERS ? count : MAX_WORKERS;
}

/* A thread's part. Where no region is ready another thread has to go on, and may wait for this processor. */
static void *work(void *handle) {
    pcompact_work_yielding(handle, sched_yield);
    return NULL;
}

/* Slides the objects by this thread, and by others as far as they can be started. */
static void slide_objects(void) {
    size_t workers = worker_count(), started = 1;
    pthread_t threads[MAX_WORKERS];
    pcompact_handle handles[MAX_WORKERS] = {{false, NULL}};
    pcompact_answer answer;
    check(pcompact_begin_slide(&slide, handles, workers));
    while (started < workers && pthread_create(&threads[started], NULL, work, &handles[started]) == 0) started++;
    work(&handles[0]);
    for (size_t i = 1; i < started; i++) pthread_join(threads[i], NULL);
    pcompact_end_slide(&slide, handles, workers, false, &answer);
    check(answer.fault);
    s48_ShpS = (char *)(words + answer.new_top);
    word_count = 0;
    free(marks);
}

/* A link cell tells a table that its key may have moved. The heap's own trace of it does so, with a new pair. No words are in use
 * by a collection then, so it marks nothing. */
static void trace_link_cells(void) {
    for (size_t i = 0; i < link_cells.count; i++) {
        char *cell = (char *)object_of(link_cells.items[i]);
        if (s48_available() < 3) ps_error("pcompact: no room for a pair", 0);
        own_trace_locationsB(cell, cell + sizeof(long));
    }
}

/* Compacts the heap. With PCOMPACT_MESSAGES each compaction checks it, and says that it was. */
void s48_collect(char is_major) {
    long began, ended, seconds = s48_run_time(&began);
    (void)is_major;
    mark_all();
    plan_slide();
    redirect_objects();
    redirect_roots();
    slide_objects();
    trace_link_cells();
    Sgc_countS++;
    Sgc_secondsS += s48_run_time(&ended) - seconds;
    Sgc_msecondsS += ended - began;
    if (getenv("PCOMPACT_MESSAGES") && s48_check_heap(1)) fprintf(stderr, "Slid by libpcompact, %zu workers\n", worker_count());
}
