#include "coded.h"
#include <string.h>

static uint64_t mask_of(unsigned bits) {
    return (UINT64_C(1) << bits) - 1;
}

uint64_t field_of(uint64_t header, unsigned shift, unsigned bits) {
    return header >> shift & mask_of(bits);
}

uint64_t with_field(uint64_t header, unsigned shift, unsigned bits, uint64_t field) {
    return (header & ~(mask_of(bits) << shift)) | (field & mask_of(bits)) << shift;
}

uint64_t size_by(const pcompact_layout *layout, uint64_t header) {
    return (field_of(header, layout->size_shift, layout->size_bits) + layout->size_more) / (UINT64_C(1) << layout->size_unit);
}

uint64_t references_by(const pcompact_layout *layout, uint64_t header) {
    uint64_t size = size_by(layout, header);
    switch (layout->modes[field_of(header, layout->type_shift, layout->type_bits)]) {
    case 0: return 0;
    case 1: return size > 0 ? size - 1 : 0;
    default: return field_of(header, layout->first_shift, layout->first_bits);
    }
}

uint64_t word_by(const pcompact_layout *layout, uint64_t address) {
    return layout->base + (address << layout->unit);
}

uint64_t target_by(const pcompact_layout *layout, uint64_t word_count, uint64_t word) {
    if (word < layout->base) return UINT64_MAX;
    uint64_t distance = word - layout->base, step = UINT64_C(1) << layout->unit;
    return distance % step == 0 && distance / step < word_count ? distance / step : UINT64_MAX;
}

/* A field's lowest bit, anywhere in a header. */
static uint8_t any_shift(unsigned bits) {
    return (uint8_t)below(bits > 0 ? 65 - bits : 64);
}

/* Words of 2 ^ unit each end within 64 bits. */
static unsigned most_unit(uint64_t word_count) {
    unsigned unit = 0;
    while (unit < 63 && word_count - 1 < UINT64_C(1) << (63 - unit)) unit++;
    return unit;
}

/* A number up to this one, which itself and 0 are often. */
static uint64_t any_up_to(uint64_t most) {
    uint64_t kind = below(4);
    return kind == 0 ? 0 : kind == 1 ? most : most == UINT64_MAX ? any_word() : any_word() % (most + 1);
}

/* Places the other fields of a header anywhere, over the size and over each other. */
static void place_anywhere(pcompact_layout *it) {
    it->size_shift = any_shift(it->size_bits);
    it->type_bits = (uint8_t)any_up_to(8);
    it->type_shift = any_shift(it->type_bits);
    it->first_bits = (uint8_t)(below(2) > 0 ? 2 + below(6) : below(64));
    it->first_shift = any_shift(it->first_bits);
}

/* Places them above or below the size. */
static void place_apart(pcompact_layout *it) {
    uint64_t left = 64 - it->size_bits, low = below(2) > 0 ? it->size_bits : 0;
    it->size_shift = (uint8_t)(low > 0 ? 0 : left);
    it->type_bits = (uint8_t)any_up_to(left < 8 ? left : 8);
    it->type_shift = (uint8_t)low;
    it->first_bits = (uint8_t)any_up_to(left - it->type_bits);
    it->first_shift = (uint8_t)(it->first_bits > 0 ? low + it->type_bits : below(64));
}

pcompact_layout any_layout(uint64_t word_count) {
    pcompact_layout it = {.size_unit = (uint8_t)below(below(4) > 0 ? 4 : 32)};
    it.size_bits = (uint8_t)(it.size_unit + 32 + any_up_to(63 - (it.size_unit + 32)));
    if (below(2) > 0) place_apart(&it);
    else place_anywhere(&it);
    for (size_t i = 0; i < 256; i++) it.modes[i] = (uint8_t)below(3);
    it.unit = (uint8_t)(below(2) > 0 ? below(4) : any_up_to(most_unit(word_count)));
    it.base = any_up_to(-(word_count << it.unit));
    uint64_t word_units = UINT64_C(1) << it.size_unit;
    it.filler_tag = with_field(any_word(), it.size_shift, it.size_bits, 0);
    it.filler_less = any_up_to(word_units);
    it.size_more = it.filler_less + any_up_to(word_units - 1);
    return it;
}

/* A size in units that makes so many words. */
static uint64_t any_units(const pcompact_layout *layout, uint64_t size) {
    uint64_t word_units = UINT64_C(1) << layout->size_unit, least = size * word_units, more = layout->size_more;
    uint64_t low = least > more ? least - more : 0, high = least + word_units - 1 - more;
    return low + any_up_to(high - low);
}

bool make_header(const pcompact_layout *layout, uint64_t size, uint64_t *header) {
    for (size_t tries = 0; tries < 20; tries++) {
        *header = with_field(any_word(), layout->first_shift, layout->first_bits, below(size));
        if (below(2) > 0) *header = with_field(*header, layout->type_shift, layout->type_bits, any_word());
        *header = with_field(*header, layout->size_shift, layout->size_bits, any_units(layout, size));
        if (size_by(layout, *header) == size && references_by(layout, *header) < size) return true;
    }
    return false;
}

uint64_t any_stray(const coded_heap *it) {
    const pcompact_layout *by = &it->layout;
    uint64_t count = it->heap.word_count, step = UINT64_C(1) << by->unit;
    for (;;) {
        uint64_t between = word_by(by, below(count)) + step / 2;
        uint64_t beside[] = {0, 2 * any_word() + 1, word_by(by, count), by->base - 1, by->base - step, between};
        uint64_t word = below(2) > 0 ? any_word() : beside[below(6)];
        if (target_by(by, count, word) == UINT64_MAX) return word;
    }
}

uint64_t any_value(const coded_heap *it) {
    if (it->object_count == 0 || below(4) == 0) return any_stray(it);
    return word_by(&it->layout, it->objects[below(it->object_count)]);
}

/* Lays out objects from a first word on, with gaps between them. */
static void place_objects(coded_heap *it) {
    uint64_t count = it->heap.word_count, most = below(6) == 0 ? 300 : 12, gap = below(3) == 0 ? 30 : 3, header;
    it->object_count = 0;
    for (uint64_t at = below(2) * below(gap); at < count; at += below(2) * below(gap)) {
        uint64_t room = count - at, size = 1 + below(room < most ? room : most);
        if (make_header(&it->layout, size, &header)) {
            it->heap.words[at] = header;
            it->objects[it->object_count++] = at;
        }
        at += size;
    }
}

/* Fills words that are no header, of which the first ones are references. */
static void fill_words(coded_heap *it, uint64_t at, uint64_t end, uint64_t references) {
    for (uint64_t a = at; a < end; a++) {
        bool is_reference = a - at < references;
        it->heap.words[a] = is_reference ? any_value(it) : word_by(&it->layout, below(it->heap.word_count));
        if (!is_reference && below(2) > 0) it->heap.words[a] = any_word();
    }
}

static pcompact_layout layout_of(const heap *it, enum layouts layouts) {
    switch (layouts) {
    case OCAML: return pcompact_ocaml_layout((uintptr_t)it->words);
    case SCHEME48: return pcompact_scheme48_layout((uintptr_t)it->words);
    default: return any_layout(it->word_count);
    }
}

void make_coded_heap(coded_heap *it, size_t word_count, size_t guard, enum layouts layouts, pcompact_settings settings) {
    make_heap(&it->heap, word_count, guard, settings);
    it->layout = layout_of(&it->heap, layouts);
    memset(it->is_reached, 0, sizeof it->is_reached);
    place_objects(it);
    uint64_t end = 0;
    for (size_t i = 0; i < it->object_count; i++) {
        uint64_t at = it->objects[i], header = it->heap.words[at];
        fill_words(it, end, at, 0);
        end = at + size_by(&it->layout, header);
        fill_words(it, at + 1, end, references_by(&it->layout, header));
    }
    fill_words(it, end, word_count, 0);
}

/* Reaches the object to which a word leads, and notes one that wasn't reached yet. */
static void visit(coded_heap *it, uint64_t word, uint64_t *waiting, size_t *count) {
    uint64_t at = target_by(&it->layout, it->heap.word_count, word);
    if (at == UINT64_MAX || it->is_reached[at]) return;
    it->is_reached[at] = true;
    waiting[(*count)++] = at;
}

/* Lists the reached objects as live ones. */
static void list_reached(coded_heap *it) {
    it->heap.live_count = 0;
    for (uint64_t a = 0; a < it->heap.word_count; a++) {
        if (it->is_reached[a]) add_object(&it->heap, a, size_by(&it->layout, it->heap.words[a]));
    }
}

void reach(coded_heap *it, const uint64_t *roots, size_t root_count) {
    static uint64_t waiting[MOST_WORDS];
    size_t count = 0;
    for (size_t i = 0; i < root_count; i++) {
        visit(it, roots[i], waiting, &count);
        while (count > 0) {
            uint64_t at = waiting[--count], references = references_by(&it->layout, it->heap.words[at]);
            for (uint64_t q = at + 1; q <= at + references; q++) visit(it, it->heap.words[q], waiting, &count);
        }
    }
    list_reached(it);
}
