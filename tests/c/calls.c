/* Calls the functions of pcompact.h that check, summarise and collect, and prints what is wrong. Links with checks.c.
 *
 * usage: calls IMAGE COMPACTION PREFIX_END NEW_TOP FILLED_REGIONS */
#include "checks.h"
#include "pcompact.h"
#include <stdlib.h>
#include <string.h>

static int has_text(pcompact_fault fault, const char *wanted) {
    uint8_t text[64];
    size_t count = pcompact_fault_text(fault, text, sizeof text);
    return count == strlen(wanted) && strcmp((char *)text, wanted) == 0;
}

static void check_texts(void) {
    check(has_text((pcompact_fault){11, 0, 0}, "11 memory"), "text of fault 11");
    check(has_text((pcompact_fault){6, 0, 4}, "6 live order at index 4"), "text of fault 6");
    check(has_text((pcompact_fault){8, 0, 4194303}, "8 overlap at 4194303"), "text of fault 8");
    check(has_text((pcompact_fault){15, 0, 1}, "15 overwritten region 1"), "text of fault 15");
    check(has_text((pcompact_fault){16, 0, 0}, "16 gate"), "text of fault 16");
    check(has_text((pcompact_fault){17, 0, 4194303}, "17 root at index 4194303"), "text of fault 17");
    check(has_text((pcompact_fault){9, UINT32_MAX, UINT64_MAX}, "9 reference at 18446744073709551615 field 4294967295"),
          "the longest text");
    check(has_text((pcompact_fault){0, 0, 0}, ""), "no fault has no text");
    check(has_text((pcompact_fault){18, 8, 0}, "18 layout rule 8"), "text of fault 18");
    check(has_text((pcompact_fault){18, 0, 0}, "") && has_text((pcompact_fault){18, 9, 0}, ""), "there are 8 rules of layouts");
    check(has_text((pcompact_fault){18, 1, 1}, ""), "fault 18 has no place");
    check(has_text((pcompact_fault){19, 0, 0}, ""), "there is no fault 19");
    check(has_text((pcompact_fault){11, 1, 0}, ""), "fault 11 has no field");
    check(has_text((pcompact_fault){6, 0, UINT64_C(1) << 32}, ""), "an index has 32 bits");
}

static void check_cut_texts(void) {
    uint8_t text[8];
    memset(text, 'x', sizeof text);
    check(pcompact_fault_text((pcompact_fault){11, 0, 0}, text, 5) == 9, "length of a text that is cut");
    check(memcmp(text, "11 m\0xxx", 8) == 0, "a text that is cut, and the bytes after it");
    check(pcompact_fault_text((pcompact_fault){11, 0, 0}, text, 0) == 9, "no room");
    check(memcmp(text, "11 m\0xxx", 8) == 0, "no room, no byte");
}

/* The base heap has the header of its first object at its first word. */
static void check_image(const char *name) {
    image it = read_image(name);
    uint8_t *bytes = it.bytes;
    size_t len = it.len;
    check(pcompact_check(bytes, len).number == 0, "a valid image");
    check(pcompact_check(bytes, 31).number == 1, "a cut head");
    check(pcompact_check(bytes, len - 1).number == 5, "a cut body");
    bytes[len] = 0;
    check(pcompact_check(bytes, len + 1).number == 10, "a byte too many");
    bytes[FRONT_BYTES] ^= 1;
    pcompact_fault fault = pcompact_check(bytes, len);
    check(fault.number == 7 && fault.place == 0, "a header that is none");
    bytes[0] ^= 1;
    check(pcompact_check(bytes, len).number == 2, "another magic");
    free(bytes);
}

static uint64_t number_at(const uint8_t *bytes, size_t size) {
    uint64_t number = 0;
    memcpy(&number, bytes, size);
    return number;
}

/* A heap in memory: its words, and in the same block its live addresses in version 1, otherwise its roots. */
typedef struct heap {
    uint64_t *words, *tail;
    size_t word_count, tail_count;
    pcompact_settings settings;
    int is_rooted;
} heap;

/* The heap of an image. The machine is little endian. */
static heap read_heap(const image *from) {
    heap it;
    it.settings = (pcompact_settings){(uint32_t)number_at(from->bytes + 8, 4), number_at(from->bytes + 24, 8)};
    it.tail_count = number_at(from->bytes + 12, 4);
    it.word_count = number_at(from->bytes + 16, 8);
    it.is_rooted = has_roots(from);
    it.words = room_for(8 * (it.word_count + it.tail_count));
    memcpy(it.words, from->bytes + FRONT_BYTES, 8 * (it.word_count + it.tail_count));
    it.tail = it.words + it.word_count;
    return it;
}

static int is_same(const heap *one, const heap *other) {
    return one->word_count == other->word_count && one->tail_count == other->tail_count
        && memcmp(one->words, other->words, 8 * (one->word_count + one->tail_count)) == 0;
}

static int has_figures(const pcompact_answer *answer, const pcompact_answer *wanted) {
    return answer->prefix_end == wanted->prefix_end && answer->new_top == wanted->new_top
        && answer->filled_regions == wanted->filled_regions;
}

/* The same by words and live addresses. The image is of version 1. */
static void check_heap(const image *of, const pcompact_answer *wanted) {
    heap it = read_heap(of);
    uint64_t *live = it.tail;
    pcompact_answer answer;
    check(pcompact_summary(it.words, it.word_count, live, it.tail_count, it.settings, &answer) == 0, "a summary of a heap");
    check(has_figures(&answer, wanted), "the same figures");
    check(pcompact_summary(it.words, it.word_count - 1, live, it.tail_count, it.settings, &answer) == 4,
          "a region that isn't whole");
    check(pcompact_summary(it.words, 0, live, 0, it.settings, &answer) == 4, "no word");
    pcompact_settings small = {2, 0};
    check(pcompact_summary(it.words, it.word_count, live, it.tail_count, small, &answer) == 3, "a small region");
    live[1] = it.word_count;
    check(pcompact_summary(it.words, it.word_count, live, it.tail_count, it.settings, &answer) == 6
              && answer.fault.place == 1, "an address outside the heap");
    live[1] = live[0] + 1;
    check(pcompact_summary(it.words, it.word_count, live, it.tail_count, it.settings, &answer) == 7
              && answer.fault.place == live[1], "an address without an object");
    check(pcompact_summary(it.words, it.word_count, live, 1, it.settings, &answer) == 9, "a reference to no live object");
    free(it.words);
}

static uint32_t collect(heap *it, pcompact_answer *answer) {
    if (it->is_rooted)
        return pcompact_collect_rooted(it->words, it->word_count, it->tail, it->tail_count, it->settings, answer);
    return pcompact_collect(it->words, it->word_count, it->tail, it->tail_count, it->settings, answer);
}

/* A heap with a fault of this number at this place is left as it is. */
static void check_refusal(const image *of, size_t index, uint64_t wrong, uint32_t fault, uint64_t place, const char *what) {
    heap it = read_heap(of), same = read_heap(of);
    it.words[index] = same.words[index] = wrong;
    pcompact_answer answer;
    check(collect(&it, &answer) == fault && answer.fault.number == fault && answer.fault.place == place, what);
    check(answer.prefix_end == 0 && answer.new_top == 0 && answer.filled_regions == 0, "no figures without a collection");
    check(is_same(&it, &same), "a fault leaves the memory as it was");
    free(it.words);
    free(same.words);
}

/* `after` is the image of the compaction. The first root isn't null. */
static void check_collection(const image *of, const image *after, const pcompact_answer *wanted) {
    heap it = read_heap(of), compacted = read_heap(after);
    pcompact_answer answer;
    check(collect(&it, &answer) == 0 && answer.fault.number == 0, "a collection");
    check(has_figures(&answer, wanted), "the figures of a collection");
    check(is_same(&it, &compacted), "the memory holds the compaction");
    check(collect(&it, &answer) == 0, "a collection of the compaction");
    heap other = read_heap(of);
    uint64_t object = other.tail[0] - (uint64_t)other.is_rooted, beyond = other.word_count + 1;
    check_refusal(of, object, 0, 7, object, "a header that is none");
    check_refusal(of, other.word_count, beyond, other.is_rooted ? 17 : 6, 0, "a number outside the heap");
    free(it.words);
    free(other.words);
    free(compacted.words);
}

/* The figures are those that `pcompact summary` prints. */
static void check_summary(const char *name, const char *compaction, const pcompact_answer *wanted) {
    image it = read_image(name), after = read_image(compaction);
    pcompact_answer answer;
    check(pcompact_summary_of_image(it.bytes, it.len, &answer) == 0 && answer.fault.number == 0, "a summary");
    check(has_figures(&answer, wanted), "the figures of a summary");
    if (!has_roots(&it)) check_heap(&it, &answer);
    check_collection(&it, &after, &answer);
    check(pcompact_summary_of_image(it.bytes, it.len - 1, &answer) == 5 && answer.fault.number == 5, "fault 5");
    check(answer.prefix_end == 0 && answer.new_top == 0 && answer.filled_regions == 0, "no figures");
    free(it.bytes);
    free(after.bytes);
}

int main(int argc, char **argv) {
    if (argc != 6) return 2;
    pcompact_answer wanted = {.prefix_end = strtoull(argv[3], NULL, 10), .new_top = strtoull(argv[4], NULL, 10),
                              .filled_regions = (uint32_t)strtoul(argv[5], NULL, 10)};
    check(pcompact_version() == PCOMPACT_VERSION, "the version of header and library");
    check_texts();
    check_cut_texts();
    check_image(argv[1]);
    check_summary(argv[1], argv[2], &wanted);
    return end_checks();
}
