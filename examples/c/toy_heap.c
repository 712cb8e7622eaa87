#include "toy_heap.h"
#include <pcompact.h>
#include <pthread.h>
#include <sched.h>
#include <stdio.h>
#include <stdlib.h>
#include <string.h>

enum { REGION_LOG = 9 };

static void fail(const char *why) {
    fprintf(stderr, "toy heap: %s\n", why);
    exit(1);
}

toy_heap toy_heap_new(size_t word_count, size_t root_room) {
    size_t regions = (word_count + (1 << REGION_LOG) - 1) >> REGION_LOG;
    toy_heap heap = {.word_count = regions << REGION_LOG, .root_room = root_room, .threads = 1};
    heap.words = calloc(heap.word_count, sizeof *heap.words);
    heap.roots = calloc(root_room, sizeof *heap.roots);
    if (!heap.words || !heap.roots) fail("memory");
    return heap;
}

void toy_heap_free(toy_heap *heap) {
    free(heap->words);
    free(heap->roots);
}

/* One thread's part. Where no region is ready another thread has to go on, maybe on this processor. Whatever goes wrong, the end
 * tells. */
static void *work(void *handle) {
    pcompact_work_yielding(handle, sched_yield);
    return NULL;
}

/* The end also fills what a thread that couldn't be started would have filled. */
static uint32_t collect_by_threads(toy_heap *heap, pcompact_settings settings, pcompact_answer *answer) {
    pcompact_handle handles[TOY_MAX_THREADS] = {{false, NULL}};
    pcompact_regions regions = {NULL, 0};
    pthread_t threads[TOY_MAX_THREADS];
    size_t started = 0;
    answer->fault = pcompact_begin_in_place_rooted(heap->words, heap->word_count, heap->roots, heap->root_count, settings, handles,
                                                   heap->threads, &regions);
    if (answer->fault.number != 0) return answer->fault.number;
    while (started < heap->threads && pthread_create(&threads[started], NULL, work, &handles[started]) == 0) started++;
    for (size_t i = 0; i < started; i++) pthread_join(threads[i], NULL);
    return pcompact_end_in_place(handles, heap->threads, &regions, heap->roots, heap->root_count, answer);
}

static uint32_t collect_at_once(toy_heap *heap, pcompact_settings settings, pcompact_answer *answer) {
    return pcompact_collect_in_place_rooted(heap->words, heap->word_count, heap->roots, heap->root_count, settings, answer);
}

/* All that the roots don't reach goes. A sixteenth of the heap may stay dead where that saves moving what lies low. */
static void collect(toy_heap *heap) {
    pcompact_settings settings = {.region_log = REGION_LOG, .allowance = heap->word_count / 16};
    pcompact_answer answer;
    if ((heap->threads > 1 ? collect_by_threads : collect_at_once)(heap, settings, &answer) != 0) {
        uint8_t text[64];
        pcompact_fault_text(answer.fault, text, sizeof text);
        fail((char *)text);
    }
    heap->top = (size_t)answer.new_top;
    heap->collections++;
}

value toy_new(toy_heap *heap, size_t references, size_t data) {
    if (references > TOY_MAX_REFERENCES) fail("an object has too many references");
    size_t size = 1 + references + data;
    if (heap->collects_always || size > heap->word_count - heap->top) collect(heap);
    if (size > heap->word_count - heap->top) fail("it is full");
    uint64_t *object = heap->words + heap->top;
    object[0] = (UINT64_C(1) << 56) + ((uint64_t)references << 32) + size;
    memset(object + 1, 0, sizeof *object * (size - 1));
    heap->top += size;
    return 1 + (uint64_t)(object - heap->words);
}

/* The header of an object is at its address, and so one word below its value. */
value *toy_references(const toy_heap *heap, value object) {
    return heap->words + object;
}

uint64_t *toy_data(const toy_heap *heap, value object) {
    return heap->words + object + (heap->words[object - 1] >> 32 & 0xffffff);
}

slot toy_push(toy_heap *heap, value it) {
    if (heap->root_count == heap->root_room) fail("too many roots");
    heap->roots[heap->root_count] = it;
    return heap->root_count++;
}
