/* What refusing_heap.c tells a test, and hears from it. */
#ifndef REFUSING_HEAP_H
#define REFUSING_HEAP_H

/* How many requests for memory succeed before each is refused; refuses none if it is negative. */
extern _Atomic long requests_left;

/* How many blocks are held. */
extern _Atomic long blocks_held;

#endif
