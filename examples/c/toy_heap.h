/* The heap of a toy runtime. Objects are allocated by bumping. When it is full, one call compacts it, or several threads do. */
#ifndef TOY_HEAP_H
#define TOY_HEAP_H

#include <stddef.h>
#include <stdint.h>

/* Null, which is 0, or 1 plus the address of an object. Any allocation may move all objects: afterwards only the values
 * in slots and in objects are right. */
typedef uint64_t value;

/* A place on the stack of roots. */
typedef size_t slot;

/* The most references of an object are what the library's headers have room for. */
enum { TOY_MAX_THREADS = 64, TOY_MAX_REFERENCES = (1 << 24) - 1 };

typedef struct toy_heap {
    uint64_t *words; /* the heap, from address 0 up */
    size_t word_count;
    size_t top; /* the first free address */
    value *roots;
    size_t root_count, root_room;
    size_t collections; /* how many there were */
    size_t threads; /* how many collect, at most TOY_MAX_THREADS; with 1 one call does it all */
    int collects_always; /* whether each allocation collects first, which finds values that are used after it */
} toy_heap;

/* Makes a heap of `word_count` words, at least one region, with room for `root_room` roots. It ends the process if memory runs
 * out. */
toy_heap toy_heap_new(size_t word_count, size_t root_room);

void toy_heap_free(toy_heap *heap);

/* Makes an object with `references` references, all null, and `data` words of data, all 0. It ends the process if these are more
 * references than TOY_MAX_REFERENCES, or the heap is full even after a collection. */
value toy_new(toy_heap *heap, size_t references, size_t data);

/* The references of an object. */
value *toy_references(const toy_heap *heap, value object);

/* Its data. */
uint64_t *toy_data(const toy_heap *heap, value object);

/* Puts a value on the stack. It ends the process if there is no room. */
slot toy_push(toy_heap *heap, value it);

#endif
