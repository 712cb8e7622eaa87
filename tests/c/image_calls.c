/* Calls the functions of pcompact.h that redirect, compare, encode and decode, and prints what is wrong. Links with checks.c
 * and refusing_heap.c.
 *
 * usage: image_calls IMAGE COMPACTION */
#include "checks.h"
#include "pcompact.h"
#include "refusing_heap.h"
#include <stdlib.h>
#include <string.h>

/* The words of an image and its live addresses or roots, as the calls decode them. */
typedef struct lists {
    pcompact_heap heap;
    uint64_t *words, *tail;
} lists;

typedef uint32_t decoding(const uint8_t *, size_t, uint64_t *, size_t, uint64_t *, size_t, pcompact_heap *);

/* Decodes in two calls, the first for the counts. */
static lists decode_by(decoding *decode, const image *it) {
    lists found;
    uint64_t none = 7;
    check(decode(it->bytes, it->len, &none, 0, &none, 0, &found.heap) == 0 && none == 7, "counts without a list");
    size_t words = found.heap.word_count, tail = found.heap.count;
    found.words = room_for(8 * words);
    found.tail = room_for(8 * tail);
    check(decode(it->bytes, it->len, found.words, words, found.tail, tail, &found.heap) == 0
              && found.heap.fault.number == 0, "both lists");
    return found;
}

static void end_lists(lists *it) {
    free(it->words);
    free(it->tail);
}

/* An image decodes to the numbers that its bytes have. The machine is little endian. */
static void check_decoding(const image *it) {
    lists found = decode_by(has_roots(it) ? pcompact_decode_rooted : pcompact_decode, it);
    size_t words = 8 * found.heap.word_count, tail = 8 * found.heap.count;
    check(found.heap.version == (uint32_t)(it->bytes[7] - '0'), "the version");
    check(memcmp(&found.heap.settings.region_log, it->bytes + 8, 4) == 0, "the region log");
    check(memcmp(&found.heap.settings.allowance, it->bytes + 24, 8) == 0, "the allowance");
    check(FRONT_BYTES + words + tail == it->len, "the counts");
    check(memcmp(found.words, it->bytes + FRONT_BYTES, words) == 0, "the words");
    check(memcmp(found.tail, it->bytes + FRONT_BYTES + words, tail) == 0, "the live addresses or roots");
    end_lists(&found);
}

/* A list without room stays, and one with more room than needed keeps its end. */
static void check_rooms(const image *it) {
    lists found = decode_by(pcompact_decode, it);
    size_t words = found.heap.word_count, tail = found.heap.count;
    uint64_t *wide = room_for(8 * (words + 1)), *short_list = room_for(8 * tail);
    memset(wide, 0x55, 8 * (words + 1));
    memset(short_list, 0x55, 8 * tail);
    uint64_t first = tail > 0 ? short_list[0] : 0;
    check(pcompact_decode(it->bytes, it->len, wide, words + 1, short_list, tail - 1, &found.heap) == 0, "other rooms");
    check(memcmp(wide, found.words, 8 * words) == 0, "words in more room");
    check(wide[words] == UINT64_C(0x5555555555555555), "what is behind the words stays");
    check(short_list[0] == first, "a list without room stays");
    wide[0] = 7;
    check(pcompact_decode(it->bytes, it->len - 1, wide, words, short_list, tail, &found.heap) == 5, "a cut image");
    check(wide[0] == 7 && short_list[0] == first, "a fault leaves the lists as they were");
    check(found.heap.word_count == 0 && found.heap.count == 0 && found.heap.version == 0, "no counts with a fault");
    free(wide);
    free(short_list);
    end_lists(&found);
}

/* An image without roots has a root to each live object, and one with roots the live objects that they reach. */
static void check_other_lists(const image *it, const image *after) {
    lists found = decode_by(pcompact_decode, it), moved = decode_by(pcompact_decode, after);
    pcompact_answer answer;
    check(pcompact_collect(found.words, found.heap.word_count, found.tail, found.heap.count, found.heap.settings, &answer) == 0,
          "a collection with the live addresses");
    check(memcmp(found.words, moved.words, 8 * moved.heap.word_count) == 0, "its words");
    check(memcmp(found.tail, moved.tail, 8 * moved.heap.count) == 0, "its live addresses");
    end_lists(&found);
    found = decode_by(pcompact_decode_rooted, it);
    check(pcompact_collect_rooted(found.words, found.heap.word_count, found.tail, found.heap.count, found.heap.settings,
                                  &answer) == 0, "a collection with the roots");
    check(memcmp(found.words, moved.words, 8 * moved.heap.word_count) == 0, "the same words");
    check(found.heap.version >= 2, "a version with roots");
    end_lists(&found);
    end_lists(&moved);
}

typedef size_t encoding(const uint64_t *, size_t, const uint64_t *, size_t, pcompact_settings, uint8_t *, size_t);

static void check_encoding(const image *it) {
    encoding *encode = has_roots(it) ? pcompact_encode_rooted : pcompact_encode;
    lists found = decode_by(has_roots(it) ? pcompact_decode_rooted : pcompact_decode, it);
    size_t words = found.heap.word_count, tail = found.heap.count;
    pcompact_settings settings = found.heap.settings;
    uint8_t *bytes = room_for(it->len + 1);
    memset(bytes, 0x55, it->len + 1);
    check(encode(found.words, words, found.tail, tail, settings, bytes, 0) == it->len, "the size without room");
    check(encode(found.words, words, found.tail, tail, settings, bytes, it->len - 1) == it->len, "the size with less room");
    check(bytes[0] == 0x55 && bytes[it->len - 2] == 0x55, "nothing is written without room");
    check(encode(found.words, words, found.tail, tail, settings, bytes, it->len + 1) == it->len, "the size with more room");
    check(memcmp(bytes, it->bytes, it->len) == 0, "the bytes of the image");
    check(bytes[it->len] == 0x55, "the byte behind them stays");
    settings.region_log = 2;
    check(encode(found.words, words, found.tail, tail, settings, bytes, it->len) == it->len
              && pcompact_check(bytes, it->len).number == 3, "a heap at fault");
    free(bytes);
    end_lists(&found);
}

/* Regions that version 2 doesn't allow. */
static void check_large_regions(void) {
    size_t words = (size_t)1 << 17, len = FRONT_BYTES + 8 * words;
    uint64_t *heap = calloc(words, 8), none = 0;
    uint8_t *bytes = room_for(len);
    if (!heap) exit(2);
    check(pcompact_encode_rooted(heap, words, &none, 0, (pcompact_settings){17, 0}, bytes, len) == len, "a large region");
    check(memcmp(bytes, "PCHEAP03", 8) == 0 && pcompact_check(bytes, len).number == 0, "an image of version 3");
    check(pcompact_encode_rooted(heap, words, &none, 0, (pcompact_settings){16, 0}, bytes, len) == len, "smaller regions");
    check(memcmp(bytes, "PCHEAP02", 8) == 0 && pcompact_check(bytes, len).number == 0, "an image of version 2");
    free(heap);
    free(bytes);
}

static int is_verdict(const image *before, const image *after, uint32_t difference, uint64_t place) {
    pcompact_verdict verdict;
    bool same = pcompact_verify(before->bytes, before->len, after->bytes, after->len, &verdict);
    return same == (difference == 0) && verdict.fault.number == 0 && verdict.image == 0 && verdict.difference == difference
        && verdict.place == place;
}

static int is_refused(const image *before, const image *after, uint32_t fault, uint32_t of) {
    pcompact_verdict verdict;
    bool same = pcompact_verify(before->bytes, before->len, after->bytes, after->len, &verdict);
    return !same && verdict.fault.number == fault && verdict.image == of && verdict.difference == 0 && verdict.place == 0;
}

/* The compaction has as many words as the image, and not the same. */
static void check_verdicts(const image *it, image *after) {
    check(is_verdict(it, after, 0, 0), "the compaction");
    uint64_t place = 0;
    while (memcmp(it->bytes + FRONT_BYTES + 8 * place, after->bytes + FRONT_BYTES + 8 * place, 8) == 0) place++;
    check(is_verdict(it, it, 2, place), "the first word that differs");
    after->bytes[24]++;
    check(is_verdict(it, after, 1, 0), "another allowance");
    after->bytes[24]--;
    image cut = {it->bytes, it->len - 1}, cut_after = {after->bytes, after->len - 1};
    check(is_refused(&cut, &cut_after, 5, 1), "a fault of the image before the collection");
    check(is_refused(it, &cut_after, 5, 2), "a fault of the image after the collection");
}

/* An object of two words, of which the second is the header of an object of one word. */
static void check_other_live(void) {
    uint64_t header = UINT64_C(1) << 56, words[8] = {header | 2, header | 1}, live[] = {0, 1};
    pcompact_settings settings = {3, 0};
    uint8_t bytes[104], other[104];
    image before = {bytes, sizeof bytes}, after = {other, sizeof other};
    check(pcompact_encode(words, 8, live, 1, settings, bytes, sizeof bytes) == sizeof bytes, "a heap of one object");
    check(pcompact_encode(words, 8, live + 1, 1, settings, other, sizeof other) == sizeof other, "a heap of another");
    check(is_verdict(&before, &before, 0, 0), "a heap that is its own compaction");
    check(is_verdict(&before, &after, 3, 0), "another live address");
}

/* The first two roots differ. */
static void check_roots(const image *it, image *after) {
    uint64_t words;
    memcpy(&words, after->bytes + 16, 8);
    uint8_t *roots = after->bytes + FRONT_BYTES + 8 * words, first[8];
    if (memcmp(roots, roots + 8, 8) == 0) return;
    memcpy(first, roots, 8);
    memcpy(roots, roots + 8, 8);
    memcpy(roots + 8, first, 8);
    check(is_verdict(it, after, 4, 0), "roots that changed places");
    memcpy(roots + 8, roots, 8);
    memcpy(roots, first, 8);
}

/* Null and each live object, as references of the host. */
static uint64_t *references_to(const lists *it) {
    uint64_t *references = room_for(8 * (it->heap.count + 1));
    references[0] = 0;
    for (size_t i = 0; i < it->heap.count; i++) references[i + 1] = it->tail[i] + 1;
    return references;
}

static pcompact_fault redirect(const lists *it, uint64_t *references) {
    return pcompact_new_addresses(it->words, it->heap.word_count, it->tail, it->heap.count, it->heap.settings, references,
                                  it->heap.count + 1);
}

static void check_addresses(const image *it, const image *after) {
    lists found = decode_by(pcompact_decode, it), moved = decode_by(pcompact_decode, after);
    size_t last = found.heap.count, bytes = 8 * (last + 1);
    uint64_t *references = references_to(&found), *wanted = references_to(&moved), *same = references_to(&found);
    check(redirect(&found, references).number == 0, "references are redirected");
    check(memcmp(references, wanted, bytes) == 0, "they lead to the new addresses");
    uint64_t strays[] = {found.heap.word_count + 1, found.tail[0] + 2, UINT64_MAX};
    for (size_t i = 0; i < 3; i++) {
        memcpy(references, same, bytes);
        references[last] = strays[i];
        pcompact_fault fault = redirect(&found, references);
        check(fault.number == 17 && fault.place == last && fault.field == 0, "a reference to no live object");
        check(memcmp(references, same, bytes - 8) == 0 && references[last] == strays[i], "the references stay");
    }
    uint64_t header = found.words[found.tail[0]];
    found.words[found.tail[0]] = 0;
    check(redirect(&found, references).number == 7, "a header that is none");
    found.words[found.tail[0]] = header;
    free(references);
    free(wanted);
    free(same);
    end_lists(&found);
    end_lists(&moved);
}

/* What the calls get for which memory is refused. */
typedef struct inputs {
    const image *before, *after;
    lists lists;
    uint64_t *references;
} inputs;

static uint32_t refused_redirection(inputs *it) {
    return redirect(&it->lists, it->references).number;
}

static uint32_t refused_comparison(inputs *it) {
    pcompact_verdict verdict;
    pcompact_verify(it->before->bytes, it->before->len, it->after->bytes, it->after->len, &verdict);
    return verdict.fault.number;
}

static uint32_t refused_decoding(inputs *it) {
    pcompact_heap heap;
    return pcompact_decode(it->before->bytes, it->before->len, it->lists.words, 0, it->lists.tail, 0, &heap);
}

static uint32_t refused_rooted_decoding(inputs *it) {
    pcompact_heap heap;
    return pcompact_decode_rooted(it->before->bytes, it->before->len, it->lists.words, 0, it->lists.tail, 0, &heap);
}

/* Refuses each request of a call in turn: it gives fault 11 and keeps no block. */
static void refuse_each(uint32_t call(inputs *), inputs *it, const char *what) {
    long requests = 0;
    uint32_t fault = 11;
    int holds = 1;
    while (fault == 11 && requests < 10000) {
        requests_left = requests++;
        fault = call(it);
        holds &= (fault == 11 || fault == 0) && blocks_held == 0;
    }
    requests_left = -1;
    check(holds && fault == 0 && requests > 1, what);
}

static void check_refusals(const image *before, const image *after) {
    inputs it = {before, after, decode_by(pcompact_decode, before), NULL};
    it.references = references_to(&it.lists);
    refuse_each(refused_redirection, &it, "memory refused in pcompact_new_addresses");
    refuse_each(refused_comparison, &it, "memory refused in pcompact_verify");
    refuse_each(refused_decoding, &it, "memory refused in pcompact_decode");
    refuse_each(refused_rooted_decoding, &it, "memory refused in pcompact_decode_rooted");
    free(it.references);
    end_lists(&it.lists);
}

int main(int argc, char **argv) {
    if (argc != 3) return 2;
    image before = read_image(argv[1]), after = read_image(argv[2]);
    check_decoding(&before);
    check_decoding(&after);
    check_rooms(&before);
    check_other_lists(&before, &after);
    check_encoding(&before);
    check_large_regions();
    check_verdicts(&before, &after);
    check_other_live();
    if (has_roots(&before)) check_roots(&before, &after);
    check_addresses(&before, &after);
    check_refusals(&before, &after);
    check(blocks_held == 0, "no block is held in the end");
    free(before.bytes);
    free(after.bytes);
    return end_checks();
}
