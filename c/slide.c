/* Slides of opaque objects: each plans by a call that is proved, lists the regions of a host's words, and lends them by such
 * calls. These lines aren't proved. */
#include "heap.h"
#include "lent.h"

/* Declared here, as the Rattle kit's compiler has no headers of the C library. */
void *memcpy(void *to, const void *from, size_t size);
void *memset(void *to, int byte, size_t size);

/* Faults of docs/FORMATS.md. */
enum { MEMORY = 11, WORKERS = 12 };

static pcompact_fault fault_of(uint32_t number) {
    return (pcompact_fault){.number = number};
}

/* Keeps where the words of a planned slide are. */
static void keep_words(pcompact_slide *slide, uint64_t *words, size_t word_count, uint32_t region_log) {
    slide->words = words;
    slide->word_count = word_count;
    slide->region_log = region_log;
}

pcompact_fault pcompact_plan(uint64_t *words, size_t word_count, const uint64_t *live, const uint32_t *sizes, size_t live_count,
                             pcompact_settings settings, pcompact_slide *slide) {
    if (slide->regions) return fault_of(WORKERS);
    opaque_heap heap = {settings, word_count};
    pcompact_fault fault = pcompact_plan_at(live, live_count, sizes, live_count, heap, &slide->plan);
    if (fault.number == 0) keep_words(slide, words, word_count, settings.region_log);
    return fault;
}

pcompact_fault pcompact_plan_marked(uint64_t *words, size_t word_count, const pcompact_layout *layout, pcompact_settings settings,
                                    pcompact_slide *slide) {
    if (slide->regions) return fault_of(WORKERS);
    pcompact_fault fault = pcompact_plan_marked_at(&slide->plan, words, word_count, layout, settings);
    if (fault.number == 0) keep_words(slide, words, word_count, settings.region_log);
    return fault;
}

/* How many words the last region has, if it is shorter than the others, or else 0. */
static size_t last_words(const pcompact_slide *slide) {
    return slide->word_count % ((size_t)1 << slide->region_log);
}

static void free_regions(pcompact_slide *slide) {
    if (slide->last) rattle_dealloc(slide->last);
    rattle_dealloc(slide->regions);
    slide->last = NULL;
    slide->regions = NULL;
    slide->region_count = 0;
}

/* Puts a copy in the place of the last region, with words of 0 behind those that there are. Returns whether there is memory. */
static bool copy_last(pcompact_slide *slide) {
    size_t size = (size_t)1 << slide->region_log, count = last_words(slide);
    struct tried copy = rattle_alloc(size * sizeof(uint64_t), _Alignof(uint64_t));
    if (!copy.is_ok) return false;
    pcompact_words *last = &slide->regions[slide->region_count - 1];
    slide->last = copy.at;
    memcpy(slide->last, last->at, count * sizeof(uint64_t));
    memset(slide->last + count, 0, (size - count) * sizeof(uint64_t));
    *last = (pcompact_words){true, slide->last, size};
    return true;
}

/* Lists the regions, for free_regions to free. Returns whether there is memory for them. */
static bool make_regions(pcompact_slide *slide) {
    size_t whole = slide->word_count >> slide->region_log, count = last_words(slide) > 0 ? whole + 1 : whole;
    struct tried list = rattle_alloc(count * sizeof(pcompact_words), _Alignof(pcompact_words));
    if (!list.is_ok) return false;
    slide->regions = list.at;
    slide->region_count = pcompact_cut(slide->words, slide->word_count, slide->region_log, slide->regions);
    if (count == whole || copy_last(slide)) return true;
    free_regions(slide);
    return false;
}

pcompact_fault pcompact_begin_slide(pcompact_slide *slide, pcompact_handle *handles, size_t worker_count) {
    if (!slide->plan.is_held) return fault_of(WORKERS);
    if (!make_regions(slide)) return fault_of(MEMORY);
    pcompact_fault fault = pcompact_begin_slide_at(&slide->plan, slide->regions, slide->region_count, handles, worker_count,
                                                   place_of_listed(slide->regions));
    if (fault.number != 0) free_regions(slide);
    return fault;
}

uint32_t pcompact_end_slide(pcompact_slide *slide, pcompact_handle *handles, size_t worker_count, bool clears,
                            pcompact_answer *answer) {
    *answer = (pcompact_answer){.fault = fault_of(WORKERS)};
    if (!slide->regions) return WORKERS;
    *answer = pcompact_end_slide_at(handles, worker_count, slide->regions, slide->region_count, place_of_listed(slide->regions));
    if (answer->fault.number != 0) return answer->fault.number;
    size_t count = last_words(slide), top = answer->new_top;
    if (count > 0) memcpy(slide->words + (slide->word_count - count), slide->last, count * sizeof(uint64_t));
    if (clears) memset(slide->words + top, 0, (slide->word_count - top) * sizeof(uint64_t));
    free_regions(slide);
    *slide = (pcompact_slide){.plan = slide->plan};
    return 0;
}

uint32_t pcompact_forget_slide(pcompact_slide *slide) {
    if (slide->regions) return WORKERS;
    uint32_t fault = pcompact_forget(&slide->plan);
    if (fault == 0) *slide = (pcompact_slide){.words = NULL};
    return fault;
}
