/* The proved calls behind those of lent.c, in_place.c and slide.c. `place` is a number for the words that are lent: an end with
 * another than that of the begin is fault 12. */
#ifndef PCOMPACT_LENT_H
#define PCOMPACT_LENT_H

#include "pcompact.h"

/* Settings, and the place of the words that are lent. */
typedef struct lent_settings {
    pcompact_settings heap;
    uint64_t place;
} lent_settings;

pcompact_fault pcompact_begin_lent_at(pcompact_words *words, size_t region_count, const uint64_t *live, size_t live_count,
                                      lent_settings settings, pcompact_handle *handles, size_t worker_count);

pcompact_fault pcompact_begin_lent_rooted_at(pcompact_words *words, size_t region_count, const uint64_t *roots, size_t root_count,
                                             lent_settings settings, pcompact_handle *handles, size_t worker_count);

pcompact_fault pcompact_begin_check_at(pcompact_words *words, size_t region_count, const uint64_t *live, size_t live_count,
                                       lent_settings settings, pcompact_handle *handles, size_t worker_count);

pcompact_fault pcompact_begin_check_rooted_at(pcompact_words *words, size_t region_count, const uint64_t *roots, size_t root_count,
                                              lent_settings settings, pcompact_handle *handles, size_t worker_count);

pcompact_fault pcompact_begin_checked_at(pcompact_handle *handles, size_t worker_count, pcompact_words *words, size_t region_count,
                                         uint64_t place);

pcompact_answer pcompact_end_lent_at(pcompact_handle *handles, size_t worker_count, pcompact_words *words, size_t region_count,
                                     uint64_t *list, size_t list_count, uint64_t place);

/* The numbers of a heap of opaque objects. Its last region may have fewer words than the others. */
typedef struct opaque_heap {
    pcompact_settings settings;
    uint64_t words;
} opaque_heap;

pcompact_fault pcompact_plan_at(const uint64_t *live, size_t live_count, const uint32_t *sizes, size_t size_count,
                                opaque_heap heap, pcompact_handle *plan);

pcompact_fault pcompact_plan_marked_at(pcompact_handle *marking, const uint64_t *words, size_t word_count,
                                       const pcompact_layout *layout, pcompact_settings settings);

pcompact_fault pcompact_begin_slide_at(pcompact_handle *plan, pcompact_words *words, size_t region_count, pcompact_handle *handles,
                                       size_t worker_count, uint64_t place);

pcompact_answer pcompact_end_slide_at(pcompact_handle *handles, size_t worker_count, pcompact_words *words, size_t region_count,
                                      uint64_t place);

/* The place of words that a host lends. It is even, as a struct of words is aligned to 8 bytes. */
static inline uint64_t place_of_lent(const pcompact_words *words) {
    return (uintptr_t)words;
}

/* The place of words that are collected or slid in place, whose regions are listed here. It is odd, so no end takes one kind for
 * the other. */
static inline uint64_t place_of_listed(const pcompact_words *words) {
    return (uintptr_t)words + 1;
}

#endif
