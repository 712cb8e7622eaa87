/* The calls in place: each makes a list of the regions of a host's words, and lends them by a call that is proved. These lines
 * aren't proved. */
#include "heap.h"
#include "lent.h"

/* Limits by the names that they have in crates/object_heap/src/limits.rt, and faults of docs/FORMATS.md. */
enum { MAX_REGION_LOG_V3 = 20, MAX_REGIONS_V3 = 1 << 20, LENGTH = 4, MEMORY = 11, WORKERS = 12 };

/* How many regions a heap has: none where they don't divide its words or are more than any heap has, or where its live addresses
 * or roots are more than its words. To no regions and no list a lent call answers the fault of such sizes, 3 or 4. */
static size_t count_regions(size_t word_count, size_t list_count, uint32_t region_log) {
    if (region_log > MAX_REGION_LOG_V3 || list_count > word_count) return 0;
    size_t size = (size_t)1 << region_log, count = word_count / size;
    return word_count % size == 0 && count <= MAX_REGIONS_V3 ? count : 0;
}

/* Lists `count` regions, for free_list to free. Returns whether there is memory for the list. */
static bool make_list(uint64_t *words, size_t count, uint32_t region_log, pcompact_regions *regions) {
    struct tried list = rattle_alloc(count * sizeof(pcompact_words), _Alignof(pcompact_words));
    if (!list.is_ok) return false;
    *regions = (pcompact_regions){list.at, count};
    if (count > 0) pcompact_cut(words, count << region_log, region_log, regions->at);
    return true;
}

static void free_list(pcompact_regions *regions) {
    rattle_dealloc(regions->at);
    *regions = (pcompact_regions){NULL, 0};
}

static uint32_t refuse(uint32_t fault, pcompact_answer *answer) {
    *answer = (pcompact_answer){.fault = {.number = fault}};
    return fault;
}

typedef uint32_t lent_call(pcompact_words *, size_t, uint64_t *, size_t, pcompact_settings, pcompact_answer *);

static uint32_t collect_by(lent_call *collect_lent, uint64_t *words, size_t word_count, uint64_t *list, size_t list_count,
                           pcompact_settings settings, pcompact_answer *answer) {
    size_t count = count_regions(word_count, list_count, settings.region_log);
    pcompact_regions regions;
    if (!make_list(words, count, settings.region_log, &regions)) return refuse(MEMORY, answer);
    uint32_t fault = collect_lent(regions.at, count, list, count > 0 ? list_count : 0, settings, answer);
    free_list(&regions);
    return fault;
}

uint32_t pcompact_collect_in_place(uint64_t *words, size_t word_count, uint64_t *live, size_t live_count,
                                   pcompact_settings settings, pcompact_answer *answer) {
    return collect_by(pcompact_collect_lent, words, word_count, live, live_count, settings, answer);
}

uint32_t pcompact_collect_in_place_rooted(uint64_t *words, size_t word_count, uint64_t *roots, size_t root_count,
                                          pcompact_settings settings, pcompact_answer *answer) {
    return collect_by(pcompact_collect_lent_rooted, words, word_count, roots, root_count, settings, answer);
}

typedef pcompact_fault lent_begin(pcompact_words *, size_t, const uint64_t *, size_t, lent_settings, pcompact_handle *, size_t);

static pcompact_fault begin_by(lent_begin *begin_lent, uint64_t *words, size_t word_count, const uint64_t *list, size_t list_count,
                               pcompact_settings settings, pcompact_handle *handles, size_t worker_count,
                               pcompact_regions *regions) {
    if (regions->at) return (pcompact_fault){.number = WORKERS};
    size_t count = count_regions(word_count, list_count, settings.region_log);
    pcompact_regions found;
    if (!make_list(words, count, settings.region_log, &found)) return (pcompact_fault){.number = MEMORY};
    lent_settings lent = {settings, place_of_listed(found.at)};
    pcompact_fault fault = begin_lent(found.at, count, list, count > 0 ? list_count : 0, lent, handles, worker_count);
    if (fault.number == 0) {
        *regions = found;
    } else {
        free_list(&found);
    }
    return fault;
}

pcompact_fault pcompact_begin_in_place(uint64_t *words, size_t word_count, const uint64_t *live, size_t live_count,
                                       pcompact_settings settings, pcompact_handle *handles, size_t worker_count,
                                       pcompact_regions *regions) {
    return begin_by(pcompact_begin_lent_at, words, word_count, live, live_count, settings, handles, worker_count, regions);
}

pcompact_fault pcompact_begin_in_place_rooted(uint64_t *words, size_t word_count, const uint64_t *roots, size_t root_count,
                                              pcompact_settings settings, pcompact_handle *handles, size_t worker_count,
                                              pcompact_regions *regions) {
    return begin_by(pcompact_begin_lent_rooted_at, words, word_count, roots, root_count, settings, handles, worker_count,
                    regions);
}

pcompact_fault pcompact_begin_check_in_place(uint64_t *words, size_t word_count, const uint64_t *live, size_t live_count,
                                             pcompact_settings settings, pcompact_handle *handles, size_t worker_count,
                                             pcompact_regions *regions) {
    return begin_by(pcompact_begin_check_at, words, word_count, live, live_count, settings, handles, worker_count, regions);
}

pcompact_fault pcompact_begin_check_in_place_rooted(uint64_t *words, size_t word_count, const uint64_t *roots, size_t root_count,
                                                    pcompact_settings settings, pcompact_handle *handles, size_t worker_count,
                                                    pcompact_regions *regions) {
    return begin_by(pcompact_begin_check_rooted_at, words, word_count, roots, root_count, settings, handles, worker_count, regions);
}

pcompact_fault pcompact_begin_checked_in_place(pcompact_handle *handles, size_t worker_count, pcompact_regions *regions) {
    if (!regions->at) return (pcompact_fault){.number = WORKERS};
    pcompact_fault fault =
        pcompact_begin_checked_at(handles, worker_count, regions->at, regions->count, place_of_listed(regions->at));
    /* After any other fault the handles have nothing, and the words are the host's again. */
    if (fault.number != 0 && fault.number != WORKERS && fault.number != LENGTH) free_list(regions);
    return fault;
}

uint32_t pcompact_end_in_place(pcompact_handle *handles, size_t worker_count, pcompact_regions *regions, uint64_t *list,
                               size_t list_count, pcompact_answer *answer) {
    if (!regions->at) return refuse(WORKERS, answer);
    *answer = pcompact_end_lent_at(handles, worker_count, regions->at, regions->count, list, list_count,
                                   place_of_listed(regions->at));
    uint32_t fault = answer->fault.number;
    if (fault == 0) free_list(regions);
    return fault;
}
