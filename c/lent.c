/* The calls over lent words by several threads: each names the place of these words to a call that is proved. These lines aren't
 * proved. */
#include "lent.h"

pcompact_fault pcompact_begin_lent(pcompact_words *words, size_t region_count, const uint64_t *live, size_t live_count,
                                   pcompact_settings settings, pcompact_handle *handles, size_t worker_count) {
    lent_settings lent = {settings, place_of_lent(words)};
    return pcompact_begin_lent_at(words, region_count, live, live_count, lent, handles, worker_count);
}

pcompact_fault pcompact_begin_lent_rooted(pcompact_words *words, size_t region_count, const uint64_t *roots, size_t root_count,
                                          pcompact_settings settings, pcompact_handle *handles, size_t worker_count) {
    lent_settings lent = {settings, place_of_lent(words)};
    return pcompact_begin_lent_rooted_at(words, region_count, roots, root_count, lent, handles, worker_count);
}

uint32_t pcompact_end_lent(pcompact_handle *handles, size_t worker_count, pcompact_words *words, size_t region_count,
                           uint64_t *list, size_t list_count, pcompact_answer *answer) {
    *answer = pcompact_end_lent_at(handles, worker_count, words, region_count, list, list_count, place_of_lent(words));
    return answer->fault.number;
}
