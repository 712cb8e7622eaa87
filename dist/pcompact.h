/* The C interface of pcompact, a sliding full collection whose program is proved.
 *
 * Link libpcompact.a. It takes memory by malloc, unless the program defines the three functions of heap.c: any allocator that
 * aligns to 16 bytes and that several threads may call can stand in its place. Each call is proved but those that
 * are inline here, those in place, those of several threads over lent words, and those of slides and segments: these are a few
 * lines of C, here, in in_place.c, in lent.c, in slide.c and in segments.c, around calls that are proved, and are only tested.
 *
 * No fault loses a heap: this is proved, but for words that are lent or slid, of which it is only tested. What a caller mixes up
 * of a collection or slide by several threads is fault 12.
 *
 * No call starts a thread or waits, and none keeps state but behind the handles of a collection or slide, so several threads may
 * be in calls at once, each with memory and handles of its own. No call may be made from a signal handler, or in a forked child of
 * a process with threads. A thread sanitizer sees the library's copies of words and not the atomic steps between them, as it isn't
 * built with one: tests/c/threads.supp silences that. */
#ifndef PCOMPACT_H
#define PCOMPACT_H

#include <stdbool.h>
#include <stddef.h>
#include <stdint.h>

#ifdef __cplusplus
extern "C" {
#endif

/* A fault with its particulars. `number` is 0 if there is none. */
typedef struct pcompact_fault {
    uint32_t number; /* docs/FORMATS.md lists the faults */
    uint32_t field;  /* of faults 9 and 18, otherwise 0 */
    uint64_t place;  /* the index of faults 6 and 17, the address of faults 7 to 9, otherwise 0 */
} pcompact_fault;

/* The version of this header: 1000000 * major + 1000 * minor + patch. */
#define PCOMPACT_VERSION 3000

/* The version of the library. */
uint32_t pcompact_version(void);

/* Writes the text of a fault, for example `9 reference at 5 field 1`, and a zero byte. A text without room for all of
 * it is cut. Returns the number of bytes of the whole text without the zero byte, at most 63: 0 if there is no such
 * fault. `text` isn't null, and `room` is the number of bytes there. */
size_t pcompact_fault_text(pcompact_fault fault, uint8_t *text, size_t room);

/* The first fault of the bytes of an image (1 to 10 or 17, or 11 if memory runs out). Its number is 0 exactly if the
 * bytes are the text of a valid image and memory suffices. `bytes` isn't null, and nobody writes there meanwhile. */
pcompact_fault pcompact_check(const uint8_t *bytes, size_t len);

/* What a collection will do or has done. If there is a fault, the other numbers are 0. */
typedef struct pcompact_answer {
    pcompact_fault fault;
    uint64_t prefix_end;     /* the address at which the dense prefix ends */
    uint64_t new_top;        /* the first free address after the collection */
    uint32_t filled_regions; /* how many regions a collection fills */
} pcompact_answer;

/* Tells what a collection will do to the image with these bytes. Returns the number of the fault in `answer`, which is that
 * of pcompact_check: 0 if there is none. Takes the memory of the image, and about 4 bits for each of its words. `bytes`
 * and `answer` aren't null, and nobody writes there meanwhile. `answer` need not be filled before. */
uint32_t pcompact_summary_of_image(const uint8_t *bytes, size_t len, pcompact_answer *answer);

/* What the words of a heap don't say. Its regions divide the words. There are at most 16384 regions and 4194304 words, which are
 * 32 MiB, with roots or in a slide 1048576 and 68719476736: else the fault is 4.
 *
 * The first word of an object is its header, (1 << 56) + (references << 32) + size: below 2^24 references, and a size in words,
 * this one included, below 2^32. By `+` 2^24 references make another kind, which is fault 7; by `|` they would make an object
 * without references, and what they lead to would be lost. */
typedef struct pcompact_settings {
    uint32_t region_log; /* the logarithm, to base 2, of the words of a region: 3 to 16, with roots or in a slide to 20 */
    uint64_t allowance;  /* the largest number of dead words that the dense prefix may keep */
} pcompact_settings;

/* Tells what a collection will do to the heap with these words, from address 0 up, and these live addresses, ascending. Returns
 * the number of the fault in `answer`: 0, 3, 4, 6 to 9, or 11 if memory runs out. Takes the memory of a copy of the
 * words, and about 4 bits for each of them. No pointer is null, also with a count of 0, and nobody writes there meanwhile.
 * Nothing but `answer` is written. */
uint32_t pcompact_summary(const uint64_t *words, size_t word_count, const uint64_t *live, size_t live_count,
                          pcompact_settings settings, pcompact_answer *answer);

/* Compacts the heap with these words, from address 0 up, and these live addresses, ascending: afterwards the words are
 * those of the compaction, and the live addresses the new ones in the same order. Returns the number of the fault in
 * `answer`: 0, 3, 4, 6 to 9, or 11 if memory runs out. After a fault the words and live addresses are as they were. Takes the
 * memory of a copy of the words, and what a collection by one worker takes. No pointer is null, also with a count of 0, nothing
 * that they lead to overlaps, and nobody reads or writes there meanwhile. */
uint32_t pcompact_collect(uint64_t *words, size_t word_count, uint64_t *live, size_t live_count, pcompact_settings settings,
                          pcompact_answer *answer);

/* The same for a heap with roots, each of which is 0 or 1 plus the address of an object. The live objects are those that
 * the roots reach, and afterwards the roots lead to their new addresses. Faults: 0, 3, 4, 7 to 9, 17 and 11. */
uint32_t pcompact_collect_rooted(uint64_t *words, size_t word_count, uint64_t *roots, size_t root_count,
                                 pcompact_settings settings, pcompact_answer *answer);

/* Like pcompact_collect, but collects the words where they lie, without a copy of them, which takes less time and memory. The
 * answer is the same, and so are faults. Takes the memory that a collection by one worker takes, and 24 bytes for each region. */
uint32_t pcompact_collect_in_place(uint64_t *words, size_t word_count, uint64_t *live, size_t live_count,
                                   pcompact_settings settings, pcompact_answer *answer);

/* The same for a heap with roots, with the faults of pcompact_collect_rooted. */
uint32_t pcompact_collect_in_place_rooted(uint64_t *words, size_t word_count, uint64_t *roots, size_t root_count,
                                          pcompact_settings settings, pcompact_answer *answer);

/* Words of the host that it lends to a call, a region of a heap. The host fills one with true and its words; a zero one
 * has none. While it is held, `len` words lie behind `at`, 1 to 1048576 of them, aligned to 8 bytes, in nothing else that the
 * host lends. From the begin of a call until its end only the library uses them, and it alone writes the fields. */
typedef struct pcompact_words {
    bool is_held; /* 0 or 1 */
    uint64_t *at;
    size_t len;
} pcompact_words;

/* Cuts a heap into its regions, which may then be lent. The last is shorter where they don't divide the words. Returns
 * how many there are: `parts` has room for word_count divided by their words, rounded up. */
static inline size_t pcompact_cut(uint64_t *words, size_t word_count, uint32_t region_log, pcompact_words *parts) {
    size_t size = region_log <= 20 ? (size_t)1 << region_log : 0, count = 0;
    for (size_t at = 0; size > 0 && at < word_count; at += size) {
        parts[count].is_held = true;
        parts[count].at = words + at;
        parts[count].len = word_count - at < size ? word_count - at : size;
        count++;
    }
    return count;
}

/* Like pcompact_collect_in_place, for a heap whose regions the host lends, from address 0 up, wherever each lies. Afterwards
 * each holds its region's words of the compaction, at the same place.
 * Faults: those of pcompact_collect, and 4 if some words aren't held or are more or fewer than a region has. After a fault all
 * is as it was. Takes the memory that a collection by one worker takes. */
uint32_t pcompact_collect_lent(pcompact_words *words, size_t region_count, uint64_t *live, size_t live_count,
                               pcompact_settings settings, pcompact_answer *answer);

/* The same for a heap with roots, with the faults of pcompact_collect_rooted. */
uint32_t pcompact_collect_lent_rooted(pcompact_words *words, size_t region_count, uint64_t *roots, size_t root_count,
                                      pcompact_settings settings, pcompact_answer *answer);

/* One worker's part in a collection or slide by several threads, or a slide's plan, or a marking before it, or none. It begins as
 * all zeros; afterwards only the library writes its fields, and nobody copies one that is held or touches what it leads to. One
 * call at a time uses a handle. It may go to another thread by a start or join of a thread, a lock, or an atomic variable. */
typedef struct pcompact_handle {
    bool is_held;
    void *at;
} pcompact_handle;

/* Begins a collection of the heap with these words and live addresses, as pcompact_collect has them, by 1 to 64 workers, and
 * gives each of these handles a worker's part. Returns the fault: 12 if there aren't 1 to 64 handles or one is held, and
 * otherwise 0, 3, 4, 6 to 9, or 11 if memory runs out. After a fault the handles are as they were. Takes the memory of a
 * copy of the words, which the workers compact, and what a collection by so many workers takes. No pointer is null, also
 * with a count of 0, nothing overlaps the handles, and nobody writes there meanwhile. */
pcompact_fault pcompact_begin(const uint64_t *words, size_t word_count, const uint64_t *live, size_t live_count,
                              pcompact_settings settings, pcompact_handle *handles, size_t worker_count);

/* The same for a heap with roots, as pcompact_collect_rooted has them. Faults: 12, 0, 3, 4, 7 to 9, 17 and 11. */
pcompact_fault pcompact_begin_rooted(const uint64_t *words, size_t word_count, const uint64_t *roots, size_t root_count,
                                     pcompact_settings settings, pcompact_handle *handles, size_t worker_count);

/* Like pcompact_begin, for a heap whose regions the host lends, as pcompact_collect_lent has them: the workers compact them where
 * they lie, without a copy. From the begin to the end the words are the library's, none is held, and nobody else uses them or
 * writes their fields. Only pcompact_end_lent, which is handed the words where they were then, ends such a collection. Faults:
 * those of pcompact_begin, and 4 if some words aren't held or are more or fewer than a region has. After a fault all is as it
 * was. */
pcompact_fault pcompact_begin_lent(pcompact_words *words, size_t region_count, const uint64_t *live, size_t live_count,
                                   pcompact_settings settings, pcompact_handle *handles, size_t worker_count);

/* The same for a heap with roots, with the faults of pcompact_begin_rooted. */
pcompact_fault pcompact_begin_lent_rooted(pcompact_words *words, size_t region_count, const uint64_t *roots, size_t root_count,
                                          pcompact_settings settings, pcompact_handle *handles, size_t worker_count);

/* The regions of a heap that is collected in place, from the begin to the end. They begin as all zeros; afterwards only the
 * library writes the fields, and nobody copies them. */
typedef struct pcompact_regions {
    pcompact_words *at; /* null where there are none */
    size_t count;
} pcompact_regions;

/* Like pcompact_begin, but the workers compact the words where they lie, without a copy of them. From the begin to the end only
 * the library uses the words. Only pcompact_end_in_place, which is handed the same regions, ends such a collection. Faults: those
 * of pcompact_begin, and 12 also if there are regions already. After a fault all is as it was. */
pcompact_fault pcompact_begin_in_place(uint64_t *words, size_t word_count, const uint64_t *live, size_t live_count,
                                       pcompact_settings settings, pcompact_handle *handles, size_t worker_count,
                                       pcompact_regions *regions);

/* The same for a heap with roots, with the faults of pcompact_begin_rooted. */
pcompact_fault pcompact_begin_in_place_rooted(uint64_t *words, size_t word_count, const uint64_t *roots, size_t root_count,
                                              pcompact_settings settings, pcompact_handle *handles, size_t worker_count,
                                              pcompact_regions *regions);

/* The same collections where the workers also check the heap. Each begin finds the live objects and gives each handle a worker's
 * part in their check, for pcompact_work or pcompact_work_all; from here to the end only the library uses the words. Once no call
 * uses the handles any more, pcompact_begin_checked_in_place ends the check, and begins the collection by the same handles and
 * regions, which the workers then do by the same calls. Faults of the begin of a check: those of the other begins but 7 to 9.
 * After a fault all is as it was. */
pcompact_fault pcompact_begin_check_in_place(uint64_t *words, size_t word_count, const uint64_t *live, size_t live_count,
                                             pcompact_settings settings, pcompact_handle *handles, size_t worker_count,
                                             pcompact_regions *regions);

pcompact_fault pcompact_begin_check_in_place_rooted(uint64_t *words, size_t word_count, const uint64_t *roots, size_t root_count,
                                                    pcompact_settings settings, pcompact_handle *handles, size_t worker_count,
                                                    pcompact_regions *regions);

/* Checks what no worker has checked, and begins the collection. Faults: 12 if these aren't all handles and the regions of one begin
 * of a check: then all is as it was, and the check goes on. 7 to 9 as the other begins have them, or 11 if memory runs out: then no
 * handle is held, and the words are the host's as they were. */
pcompact_fault pcompact_begin_checked_in_place(pcompact_handle *handles, size_t worker_count, pcompact_regions *regions);

/* What pcompact_work returns. */
enum {
    PCOMPACT_SETTLED = 0,    /* all regions are filled, all objects to check taken, or all slots redirected */
    PCOMPACT_TURNS_USED = 1, /* the turns are used up */
    PCOMPACT_NONE_READY = 2, /* no region is ready: another worker may make some ready, and want this processor for it */
    PCOMPACT_NOT_HELD = 5    /* the handle isn't held */
};

/* Where the collection or slide of a handle takes the word at this address, the first of its object or not; known from its begin
 * to its end, and from a slide's plan on by the plan's handle. UINT64_MAX if no live object has such a word, or the handle isn't
 * held. Takes no memory. `handle` isn't null. */
uint64_t pcompact_new_address(pcompact_handle *handle, uint64_t address);

/* The first address from `from` on at which a live object begins, by the handle of a slide's plan. UINT64_MAX if there is none, or
 * the handle has no plan. Takes no memory. `handle` isn't null. */
uint64_t pcompact_next_object(pcompact_handle *handle, uint64_t from);

/* The address at which the live object begins that has the word at this address, its first or not, by the handle of a slide's plan.
 * UINT64_MAX if no live object has such a word, or the handle has no plan. Takes no memory. `handle` isn't null. */
uint64_t pcompact_object_over(pcompact_handle *handle, uint64_t address);

/* Whether a live object has the word at this address, by such a handle. */
static inline bool pcompact_is_live(pcompact_handle *handle, uint64_t address) {
    return pcompact_new_address(handle, address) != UINT64_MAX;
}

/* How a host's slots lead to words of its heap: a slot leads to the word at address a if it is `base` plus 2 ^ `unit` times a. For
 * machine pointers into one row of words `base` is the address of the first and `unit` is 3. Only the low 6 bits of it count. */
typedef struct pcompact_slot_coding {
    uint64_t base;
    uint64_t word_count; /* how many words slots lead to, from address 0: a slot that leads farther stays */
    uint64_t dead;       /* what takes the place of a slot that leads to a word that no live object has */
    uint32_t unit;
} pcompact_slot_coding;

/* Redirects slots that are kept outside of the heap, such as a host's roots and weak tables: each that leads to a word of the heap
 * leads to where the collection of the handle takes the word, or becomes `dead`. All others stay. By the handle of a plan the
 * slots may also be words of the heap, such as an object's fields, each once. Returns PCOMPACT_SETTLED, or PCOMPACT_NOT_HELD, and
 * then all stay. Takes no memory. No pointer is null, also with a count of 0, nothing overlaps the slots, and nobody reads or
 * writes them meanwhile. */
uint32_t pcompact_redirect(pcompact_handle *handle, uint64_t *slots, size_t slot_count, pcompact_slot_coding coding);

/* How many slots that lie apart are redirected at once. */
enum { PCOMPACT_SLOTS = 256 };

/* The same of slots that lie apart, each of which a pointer leads to, and none twice. */
static inline uint32_t pcompact_redirect_each(pcompact_handle *handle, uint64_t *const *slots, size_t slot_count,
                                              pcompact_slot_coding coding) {
    uint64_t values[PCOMPACT_SLOTS];
    uint32_t how = handle->is_held ? PCOMPACT_SETTLED : PCOMPACT_NOT_HELD;
    for (size_t from = 0; from < slot_count; from += PCOMPACT_SLOTS) {
        size_t rest = slot_count - from, count = rest < PCOMPACT_SLOTS ? rest : (size_t)PCOMPACT_SLOTS;
        for (size_t i = 0; i < count; i++) values[i] = *slots[from + i];
        how |= pcompact_redirect(handle, values, count, coding);
        for (size_t i = 0; i < count; i++) *slots[from + i] = values[i];
    }
    return how;
}

/* Fills regions that are ready by the worker of a handle, at most `turns`, or checks objects, at most `turns` times 2,048. Returns
 * how far the work has come. Takes no memory and never waits. `handle` isn't null. */
uint32_t pcompact_work(pcompact_handle *handle, uint64_t turns);

/* The same until all regions are filled, or all objects taken; spins while no region is ready, so it wants a processor for each
 * worker. Returns PCOMPACT_SETTLED or PCOMPACT_NOT_HELD. */
uint32_t pcompact_work_all(pcompact_handle *handle);

/* The same for workers that may have fewer processors: while no region is ready it calls `yield`, such as sched_yield, which gives
 * the processor to a worker that makes some ready. It may do anything but use this handle, as other work of the host's. A host that
 * would rather come back later calls pcompact_work. */
static inline uint32_t pcompact_work_yielding(pcompact_handle *handle, int (*yield)(void)) {
    for (;;) {
        uint32_t how = pcompact_work(handle, UINT64_MAX);
        if (how != PCOMPACT_NONE_READY && how != PCOMPACT_TURNS_USED) return how;
        yield();
    }
}

/* Ends a collection by the handles of one pcompact_begin or pcompact_begin_rooted, in any order, once no other call uses them:
 * fills what is left to fill, and writes the words of the compaction and the new live addresses or roots. Returns the number of
 * the fault in `answer`: 0, 12 if these aren't all handles of one such begin, 4 if the words or the list aren't as many as
 * there, or 11 if memory runs out. After a fault words and list are as they were. After fault 12 the handles are too, and
 * collections go on; otherwise no handle is held, and the collection is over. Collections that are begun and not ended keep their
 * memory. No pointer is null, also with a count of 0, nothing overlaps, and nobody reads or writes there meanwhile. `answer` need
 * not be filled before. */
uint32_t pcompact_end(pcompact_handle *handles, size_t worker_count, uint64_t *words, size_t word_count, uint64_t *list,
                      size_t list_count, pcompact_answer *answer);

/* The same for a collection that pcompact_begin_lent or pcompact_begin_lent_rooted began with these words: afterwards each holds
 * its region's words of the compaction, at the same place. Fault 12 comes also for other words, and fault 4 if some are held.
 * After a fault all is as it was, handles too, and the collection goes on. */
uint32_t pcompact_end_lent(pcompact_handle *handles, size_t worker_count, pcompact_words *words, size_t region_count,
                           uint64_t *list, size_t list_count, pcompact_answer *answer);

/* The same for a collection that pcompact_begin_in_place or pcompact_begin_in_place_rooted began with these regions: afterwards
 * its words are those of the compaction, and there are no regions. Fault 12 comes also for other regions or none. After a fault
 * all is as it was, handles and regions too, and the collection goes on. */
uint32_t pcompact_end_in_place(pcompact_handle *handles, size_t worker_count, pcompact_regions *regions, uint64_t *list,
                               size_t list_count, pcompact_answer *answer);

/* A slide of opaque objects: the host says where its live objects lie and how large they are, and the library moves their words as
 * they are. It reads and changes nothing inside of them, needs no header, and keeps their order; all references are the host's to
 * redirect. First a plan says where words will go, while they are still the host's; then its threads slide them, in place.
 *
 * A slide begins as all zeros, but for `words` where the host likes; afterwards only the library writes its fields, and nobody
 * copies it. One call at a time uses it. */
typedef struct pcompact_slide {
    pcompact_handle plan;    /* its marking, if it has one, and then its plan, until the slide begins */
    uint64_t *words;         /* the heap */
    size_t word_count;
    uint32_t region_log;
    pcompact_words *regions; /* its regions from the begin to the end, else null */
    size_t region_count;
    uint64_t *last;          /* the words of the last region, where it is shorter than the others, else null */
} pcompact_slide;

/* Plans the slide of the objects at these addresses, ascending, with these sizes in words, in the heap with these words, from
 * address 0 up, which regions need not divide. The words aren't read or written, and may change until the slide begins. With an
 * allowance of 0 no dead word is left between objects; otherwise those that the dense prefix keeps stay as they are.
 *
 * Returns the fault: 12 if there is a plan already or the slide has begun, 3 or 4 for the settings and the number of words, which
 * isn't 0, or that of the first object with which something is wrong: 6 with its index out of order or outside of the words, or
 * with its address 7 without a word or beyond the last word, 8 over the object before it. 11 if memory runs out. After a fault all
 * is as it was. Takes about 4 bits for each word until the slide ends. No pointer is null, also with a count of 0, and nobody
 * writes there meanwhile. */
pcompact_fault pcompact_plan(uint64_t *words, size_t word_count, const uint64_t *live, const uint32_t *sizes, size_t live_count,
                             pcompact_settings settings, pcompact_slide *slide);

/* Gives another handle the plan of this one too: so several threads can ask where words will go, and redirect slots, at once, each
 * by a handle of its own. Returns the fault, 12 if this one has no plan or the other is held, or 11 if memory runs out. After a
 * fault all is as it was. No pointer is null. */
pcompact_fault pcompact_share_plan(pcompact_handle *plan, pcompact_handle *other);

/* Forgets the plan or the marking of a handle, if it has one. Returns 0, or 12 for a worker's part, which it keeps. */
uint32_t pcompact_forget(pcompact_handle *plan);

/* Begins the slide that is planned, by 1 to 64 workers, and gives each of these handles a worker's part, for pcompact_work or
 * pcompact_work_all. From here to the end only the library uses the words. Returns the fault: 12 if nothing is planned, another
 * handle has the plan too, there aren't 1 to 64 handles or one is held, or 11 if memory runs out. After a fault all is as it was,
 * and planned: what is redirected by then leads to where objects will be, so only another begin makes the heap whole. Takes the
 * memory of so many workers, 24 bytes for each region, and, where the last region is shorter than the others, the words of one. No
 * pointer is null, and the plan isn't among the handles. */
pcompact_fault pcompact_begin_slide(pcompact_slide *slide, pcompact_handle *handles, size_t worker_count);

/* Ends a slide by all its handles, in any order, once no other call uses them: fills what is left to fill. Afterwards the words
 * are the host's, and slide and handles can begin again. Words from the new top in `answer` up are 0 if `clears`, and otherwise as
 * they were; those of the objects that have moved may be there still. Nothing but the words of the heap is written. Returns the
 * number of the fault in `answer`: 0, 12 if the slide hasn't begun or these aren't all its handles, or 11 if memory runs out.
 * After a fault all is as it was, and the slide goes on. No pointer is null, and nothing overlaps. `answer` need not be filled
 * before. */
uint32_t pcompact_end_slide(pcompact_slide *slide, pcompact_handle *handles, size_t worker_count, bool clears,
                            pcompact_answer *answer);

/* Forgets what is planned or marked, if it is, and frees its memory. Returns 0, or 12 if the slide has begun, which then goes
 * on. */
uint32_t pcompact_forget_slide(pcompact_slide *slide);

/* How a host lays out its objects, in numbers, so that the library can mark them and redirect their references.
 *
 * An object's first word is its header, which has three fields, each by its lowest bit and its number of bits: a size, a type, and
 * a number of references. The size is in units, of which a word has 2 ^ `size_unit`: an object has size + `size_more` units,
 * header included, rounded down to words. So sizes in words have `size_unit` 0 and `size_more` 1, or 0 if they include the header;
 * sizes in bytes have 3, and 15, which rounds up, or 7. References follow the header, and `modes` says of each type how many there
 * are: 0 none, 1 all words, 2 as many as the header says. A type that is left out has mode 0, so what only its references lead to
 * is lost; a header of 0 is an object of `size_more` units. A weak reference is none of these, and the host redirects it.
 *
 * The word `base` + 2 ^ `unit` * a leads to the object whose header is at address a: where machine addresses lead to first fields,
 * `base` is the heap's start plus 8, plus a tag. A word that is none of these for an address of the heap leads nowhere, and is
 * never changed. Marking takes each of the others for a reference to an object's header: none may lead into an object's middle.
 *
 * The last two say how a filler would be written, and no call for C writes one: `filler_tag` 0 will do, and for `filler_less` what
 * `size_more` is, or 8 where that is 15. What is wrong with a layout is fault 18, whose `field` says which rule it breaks:
 *   1 the size is a field of a header: both numbers are below 64, and their sum is at most 64
 *   2 it can count the units of 2147483648 words, whatever the heap has: 32 bits and more for words, 35 for bytes
 *   3 the type is a field of a header, of at most 8 bits
 *   4 the number of references is a field of a header
 *   5 no mode is above 2
 *   6 `unit` is below 64, and `base` + 2 ^ `unit` * (the number of words) at most 2 ^ 64
 *   7 `filler_tag` is 0 where the size is
 *   8 `filler_less` is at most `size_more` and at most 2 ^ `size_unit`, and `size_more` less than both together */
typedef struct pcompact_layout {
    uint8_t size_shift, size_bits, size_unit;
    uint8_t type_shift, type_bits;
    uint8_t first_shift, first_bits; /* the number of references, for types of mode 2 */
    uint8_t unit;
    uint64_t size_more;
    uint64_t base;
    uint64_t filler_tag;  /* a header with size 0 */
    uint64_t filler_less; /* how many units that size is below those of its words */
    uint8_t modes[256];
} pcompact_layout;

/* The layout of OCaml, 4.14 or later, and of Scheme 48, for a heap whose first word is at this machine address. */
pcompact_layout pcompact_ocaml_layout(uintptr_t start);
pcompact_layout pcompact_scheme48_layout(uintptr_t start);

/* What is wrong with a layout for a heap of so many words: fault 18, 4 if there are more than 68719476736, or 0. */
pcompact_fault pcompact_check_layout(const pcompact_layout *layout, uint64_t word_count);

/* Begins to mark the objects of a heap with so many words, by a handle that isn't held, such as a slide's plan. Returns the fault,
 * 12 if the handle is held, 4 if the words are too many, or 11 if memory runs out: here it takes all that marking takes, 2 bits
 * for each word and 128 KiB. After a fault all is as it was. */
pcompact_fault pcompact_begin_marking(uint64_t word_count, pcompact_handle *marking);

/* Marks the objects that these roots reach, words in the layout's coding, and what was marked stays marked: so roots can come in
 * batches, and more of them once the host knows what is dead, such as objects with finalisers. Reads nothing of the heap but
 * headers and references of reached objects. Takes no memory. Returns the fault: 12 if the handle has no marking, 4 if it is of
 * another number of words, or 18, and then nothing more is marked; or 7 with the address of an object without a sound header, and
 * then some of what is reached isn't. No pointer is null, also with a count of 0, and nobody writes there meanwhile. */
pcompact_fault pcompact_mark(pcompact_handle *marking, const uint64_t *words, size_t word_count, const pcompact_layout *layout,
                             const uint64_t *roots, size_t root_count);

/* The same of roots that lie apart, each of which a pointer leads to. */
static inline pcompact_fault pcompact_mark_each(pcompact_handle *marking, const uint64_t *words, size_t word_count,
                                                const pcompact_layout *layout, uint64_t *const *roots, size_t root_count) {
    uint64_t batch[64] = {0};
    size_t count = 0;
    for (size_t i = 0; i < root_count; i++) {
        batch[count++] = *roots[i];
        if (count < 64) continue;
        pcompact_fault fault = pcompact_mark(marking, words, word_count, layout, batch, count);
        if (fault.number != 0) return fault;
        count = 0;
    }
    return pcompact_mark(marking, words, word_count, layout, batch, count);
}

/* Whether the object at this address is marked. None is where the handle has no marking. Takes no memory. */
bool pcompact_is_reached(pcompact_handle *marking, uint64_t address);

/* Plans the slide of the objects that the slide's plan has marked, in the heap with these words. From then on the plan answers as
 * after pcompact_plan, and the marking is gone. Returns the fault: 12 if there is no marking, 18, 7 for an object of 2 ^ 32 words
 * or more, or one of pcompact_plan. After a fault all is as it was. Takes 12 bytes for each object until it returns, and about 4
 * bits for each word until the slide ends. */
pcompact_fault pcompact_plan_marked(uint64_t *words, size_t word_count, const pcompact_layout *layout, pcompact_settings settings,
                                    pcompact_slide *slide);

/* Which words of a heap a host hands over. */
typedef struct pcompact_objects {
    uint64_t first;      /* the address of the first of them, 0 for the heap's first word */
    uint64_t heap_words; /* how many words the whole heap has */
    uint64_t dead;       /* what takes the place of a reference that leads to a word that no live object has */
} pcompact_objects;

/* Redirects the references of the planned objects that begin in these words, where they lie: each that leads to a word of the heap
 * leads to where the slide takes the word, or becomes `dead`. All else stays. To be called once for each object, before the slide
 * begins. Several threads may do so at once by shared plans, which are to be forgotten before the begin: each with the words of a
 * part of the heap, `words` being its first word, from one object's address up to another's or the heap's end. Returns the fault,
 * 12 if nothing is planned, 4 if the heap has too many words, or 18, and then all stay. Takes no memory. */
pcompact_fault pcompact_redirect_objects(pcompact_handle *plan, uint64_t *words, size_t word_count, const pcompact_layout *layout,
                                         pcompact_objects objects);

/* How slots lead to a heap of so many words where they are coded as a layout's references: for pcompact_redirect, of roots. */
static inline pcompact_slot_coding pcompact_slots_by(const pcompact_layout *layout, uint64_t word_count, uint64_t dead) {
    pcompact_slot_coding coding = {layout->base, word_count, dead, layout->unit};
    return coding;
}

/* A heap in segments that no object crosses, such as chunks that lie apart. Each segment is a slide, by the same workers: objects
 * stay in theirs. The host fills the fields, and keeps slides and handles, which begin as all zeros. */
typedef struct pcompact_segments {
    pcompact_slide *slides; /* of each segment, by ascending addresses of their words */
    size_t segment_count;
    pcompact_handle *handles; /* of the workers, as many as pcompact_segment_handles says */
    size_t worker_count;
    uint64_t tag;  /* what a slot that leads to a word has above the word's machine address */
    uint64_t dead; /* what takes the place of a slot that leads to a word that no live object has */
} pcompact_segments;

/* How many handles so many workers of so many segments have. Those of two workers share no line of a cache. */
static inline size_t pcompact_segment_handles(size_t segment_count, size_t worker_count) {
    return (segment_count / 8 + 2) * 8 * worker_count;
}

/* A worker's handle of a segment: once plans are shared, for pcompact_next_object and others that take the handle of a plan. */
static inline pcompact_handle *pcompact_segment_handle(const pcompact_segments *heap, size_t segment, size_t worker) {
    return &heap->handles[pcompact_segment_handles(heap->segment_count, worker) + segment];
}

/* The words of a segment and its objects, as pcompact_plan has them: addresses count from the segment's first word. */
typedef struct pcompact_segment {
    uint64_t *words;
    size_t word_count;
    const uint64_t *live;
    const uint32_t *sizes;
    size_t live_count;
} pcompact_segment;

/* Plans the slides of these segments. A host can also plan each by pcompact_plan, by several threads. Returns the fault of the
 * first segment that has one, whose index is in `segment` then, and nothing is planned: those of pcompact_plan. */
pcompact_fault pcompact_plan_segments(const pcompact_segments *heap, const pcompact_segment *segments,
                                      pcompact_settings settings, size_t *segment);

/* Shares each segment's plan with its workers' handles, so that each worker can redirect. Returns the fault, 12 if a segment isn't
 * planned or a handle is held, or 11 if memory runs out. After a fault all is as it was. */
pcompact_fault pcompact_share_segments(const pcompact_segments *heap);

/* Redirects slots by a worker's handles, before or after the begin: each that leads to a word of a segment leads to where its
 * slide takes the word, or becomes `dead`. All others stay. Several workers may do so at once.
 * Returns PCOMPACT_SETTLED, or PCOMPACT_NOT_HELD if a slot led to a segment whose handle isn't held, and stays. */
uint32_t pcompact_redirect_segments(const pcompact_segments *heap, size_t worker, uint64_t *slots, size_t slot_count);

/* The same of slots that lie apart, each of which a pointer leads to, and none twice: sooner than a call for each. */
uint32_t pcompact_redirect_segments_each(const pcompact_segments *heap, size_t worker, uint64_t *const *slots, size_t slot_count);

/* Slots that lie apart, which a worker gathers and redirects once there are enough. It begins with the heap, the worker and a count
 * of 0. */
typedef struct pcompact_batch {
    const pcompact_segments *heap;
    size_t worker;
    size_t count;
    uint64_t *slots[PCOMPACT_SLOTS];
} pcompact_batch;

/* Redirects the slots of a batch, which are none then: after the last one is gathered, too. Returns what
 * pcompact_redirect_segments does. */
static inline uint32_t pcompact_redirect_batch(pcompact_batch *batch) {
    size_t count = batch->count;
    batch->count = 0;
    return pcompact_redirect_segments_each(batch->heap, batch->worker, batch->slots, count);
}

/* Gathers those of these slots whose bits of `mask` are `tag`, as of all that may lead to a word; all for 0 and 0. None is gathered
 * twice. Returns what pcompact_redirect_batch does, or PCOMPACT_SETTLED while there are few. */
static inline uint32_t pcompact_gather(pcompact_batch *batch, uint64_t *slots, size_t slot_count, uint64_t mask, uint64_t tag) {
    uint32_t how = PCOMPACT_SETTLED;
    size_t count = batch->count;
    for (size_t i = 0; i < slot_count; i++) {
        batch->slots[count] = &slots[i];
        count += (slots[i] & mask) == tag;
        if (count < PCOMPACT_SLOTS) continue;
        batch->count = count;
        how |= pcompact_redirect_batch(batch);
        count = 0;
    }
    batch->count = count;
    return how;
}

/* Begins the slides that haven't begun, by all workers, whose shares of plans are forgotten. Returns the first fault, which is one
 * of pcompact_begin_slide: then the segments before have begun, and another call begins the others. */
pcompact_fault pcompact_begin_segments(const pcompact_segments *heap);

/* Lets a worker fill regions that are ready, at most `turns` of each segment. Returns what pcompact_work returns, of all of
 * them. */
uint32_t pcompact_work_segments(const pcompact_segments *heap, size_t worker, uint64_t turns);

/* Ends the slides that have begun, and writes the answer of each in its place. Returns the first fault, which is one of
 * pcompact_end_slide: then the segments before have ended, and another call ends the others. */
uint32_t pcompact_end_segments(const pcompact_segments *heap, bool clears, pcompact_answer *answers);

/* Forgets all plans. Returns 0, or 12 if a slide has begun, and then none. */
uint32_t pcompact_forget_segments(const pcompact_segments *heap);

/* Redirects references that are kept outside of the heap with these words and live addresses to where pcompact_collect will
 * take their objects; to be called before it. Each is 0, which stays, or 1 plus a live address. Returns the fault: 0, 3, 4,
 * 6 to 9, 11 if memory runs out, or 17 with the index of the first reference that is neither. After a fault the references
 * are as they were. Takes the memory of pcompact_summary. No pointer is null, also with a count of 0, nothing overlaps the
 * references, nobody reads or writes them meanwhile, and nobody writes the rest. Nothing else is written. */
pcompact_fault pcompact_new_addresses(const uint64_t *words, size_t word_count, const uint64_t *live, size_t live_count,
                                      pcompact_settings settings, uint64_t *references, size_t reference_count);

/* The same before pcompact_collect_rooted, of references that are 0 or 1 plus the address of an object that the roots reach.
 * Returns the fault: 0, 3, 4, 7 to 9, 11, or 17 with the index of the first root above the number of words, or else of the
 * first other reference. */
pcompact_fault pcompact_new_addresses_rooted(const uint64_t *words, size_t word_count, const uint64_t *roots, size_t root_count,
                                             pcompact_settings settings, uint64_t *references, size_t reference_count);

/* How an image compares with the compaction of another. */
typedef struct pcompact_verdict {
    pcompact_fault fault; /* if there is one, the difference is 0 */
    uint32_t image;       /* what the fault came with: 1 the image before the collection, 2 the one after it, 0 none */
    uint32_t difference;  /* the first: 0 none, 1 the shape, 2 a word, 3 a live address, 4 a root */
    uint64_t place;       /* the address of the word, or the index of the live address or root, that differs */
} pcompact_verdict;

/* Returns whether the bytes `after` are the image of the compaction of the image with the bytes `before`, and otherwise
 * tells the first difference: in the sizes, settings and version, else in the words, else in the live addresses, else in the
 * roots. It compares with the definitions, and collects nothing. Faults: 0, 1 to 10 and 17 of `before`, else of `after`, or
 * 11 if memory runs out. Takes the memory of both images, and of pcompact_summary. No pointer is null, and nobody writes
 * there meanwhile. `verdict` need not be filled before. */
bool pcompact_verify(const uint8_t *before, size_t before_len, const uint8_t *after, size_t after_len,
                     pcompact_verdict *verdict);

/* Writes the bytes of the image with these words, from address 0 up, and these live addresses, ascending. Returns their
 * number, 32 + 8 * (word_count + live_count); where that is more than `room`, nothing is written. The bytes after them stay.
 * The heap isn't checked: pcompact_check tells whether the bytes are a valid image. Takes no memory. No pointer is null, also
 * with a count of 0, nothing overlaps the bytes, and nobody writes there meanwhile. */
size_t pcompact_encode(const uint64_t *words, size_t word_count, const uint64_t *live, size_t live_count,
                       pcompact_settings settings, uint8_t *bytes, size_t room);

/* The same for a heap with roots. The image is of version 2, or of version 3 where version 2 doesn't allow the sizes. */
size_t pcompact_encode_rooted(const uint64_t *words, size_t word_count, const uint64_t *roots, size_t root_count,
                              pcompact_settings settings, uint8_t *bytes, size_t room);

/* What an image says beside its words and lists. If there is a fault, the other numbers are 0. */
typedef struct pcompact_heap {
    pcompact_fault fault;
    uint32_t version; /* 1 without roots, 2 or 3 with roots */
    pcompact_settings settings;
    uint64_t word_count;
    uint64_t count; /* of the live addresses, or the roots */
} pcompact_heap;

/* Fills `heap` for the image with these bytes, and writes its words and its live addresses, ascending, to the front of
 * these lists, each where it has room for all of them; without room it stays as it is. So a first call with rooms of 0
 * tells the counts. Of an image with roots the live addresses are those that the roots reach. Returns the number of the
 * fault, which is that of pcompact_check. After a fault both lists are as they were. Takes the memory of the image. No
 * pointer is null, also with a room of 0, nothing overlaps, and nobody reads or writes there meanwhile. `heap` need not be
 * filled before. */
uint32_t pcompact_decode(const uint8_t *bytes, size_t len, uint64_t *words, size_t word_room, uint64_t *live,
                         size_t live_room, pcompact_heap *heap);

/* The same with the roots in place of the live addresses. An image of version 1 is taken as one of version 2 with a root to
 * each live object. */
uint32_t pcompact_decode_rooted(const uint8_t *bytes, size_t len, uint64_t *words, size_t word_room, uint64_t *roots,
                                size_t root_room, pcompact_heap *heap);

#ifdef __cplusplus
}
#endif

#endif
