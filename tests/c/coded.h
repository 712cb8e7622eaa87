/* What the tests of markings share: layouts of hosts, a plain model of what their numbers say, and heaps of objects by them. */
#ifndef CODED_H
#define CODED_H

#include "opaque.h"

/* What a field of a header says, and the header with another. */
uint64_t field_of(uint64_t header, unsigned shift, unsigned bits);
uint64_t with_field(uint64_t header, unsigned shift, unsigned bits, uint64_t field);

/* The size in words of an object, and the number of its references. */
uint64_t size_by(const pcompact_layout *layout, uint64_t header);
uint64_t references_by(const pcompact_layout *layout, uint64_t header);

/* The word that leads to an address, and the address to which a word leads in a heap of so many words: UINT64_MAX if to none. */
uint64_t word_by(const pcompact_layout *layout, uint64_t address);
uint64_t target_by(const pcompact_layout *layout, uint64_t word_count, uint64_t word);

/* A layout with any numbers that the rules allow for so many words, of which there are some. Its fields may overlap. */
pcompact_layout any_layout(uint64_t word_count);

/* Makes a header by which an object of this size is sound. Returns whether one was found: fields that overlap may allow none. */
bool make_header(const pcompact_layout *layout, uint64_t size, uint64_t *header);

/* A heap of objects by a layout, dead ones too. */
typedef struct coded_heap {
    heap heap; /* its live objects are what was reached so far */
    pcompact_layout layout;
    uint64_t objects[MOST_WORDS]; /* their addresses */
    size_t object_count;
    bool is_reached[MOST_WORDS];
} coded_heap;

/* A word that leads nowhere: a number, or what lies beside the words that lead somewhere. */
uint64_t any_stray(const coded_heap *it);

/* A word that leads to an object, if there is any, or nowhere. */
uint64_t any_value(const coded_heap *it);

/* Whose layout a heap has: any within the rules, or a host's by machine addresses. */
enum layouts { ANY, OCAML, SCHEME48, LAYOUTS };

/* Makes a heap of such objects, which refer to each other. All words that are no references are any, or look like some. The caller
 * frees its block. */
void make_coded_heap(coded_heap *it, size_t word_count, size_t guard, enum layouts layouts, pcompact_settings settings);

/* Reaches what these words lead to, and what was reached stays so. */
void reach(coded_heap *it, const uint64_t *roots, size_t root_count);

#endif
