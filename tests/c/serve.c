/* Answers requests of test_seeded.py: reads a call and a heap, makes the call, and writes its answer and the heap.
 * Numbers are little endian, as those of the machine.
 *
 * usage: serve */
#include "pcompact.h"
#include <pthread.h>
#include <stdio.h>
#include <stdlib.h>
#include <string.h>

enum { SUMMARY, COLLECT, COLLECT_IN_PLACE, COLLECT_BY_THREADS, COLLECT_IN_PLACE_BY_THREADS, MOST_THREADS = 16 };

/* `threads` counts where the call is by threads. */
typedef struct request {
    uint32_t call, is_rooted, region_log, gap;
    uint64_t allowance, word_count, tail_count, threads;
} request;

typedef struct reply {
    uint32_t returned, number, field, filled_regions;
    uint64_t place, prefix_end, new_top;
    uint8_t text[64];
} reply;

/* A block of exactly this number of words, as a tool that watches memory sees. */
static uint64_t *read_words(uint64_t count) {
    uint64_t *words = malloc(8 * count);
    if (!words || fread(words, 8, count, stdin) != count) exit(2);
    return words;
}

static void *work(void *handle) {
    return (void *)(uintptr_t)pcompact_work_all(handle);
}

/* Runs a worker in a thread for each of these handles. */
static void run_workers(pcompact_handle *handles, size_t count) {
    pthread_t threads[MOST_THREADS];
    for (size_t i = 0; i < count; i++) {
        if (pthread_create(&threads[i], NULL, work, &handles[i]) != 0) exit(2);
    }
    for (size_t i = 0; i < count; i++) {
        void *how;
        if (pthread_join(threads[i], &how) != 0 || (uintptr_t)how != PCOMPACT_SETTLED) exit(2);
    }
}

static uint32_t collect_copy_by(const request *asked, uint64_t *words, uint64_t *tail, pcompact_answer *answer) {
    pcompact_settings settings = {asked->region_log, asked->allowance};
    pcompact_handle handles[MOST_THREADS] = {{false, NULL}};
    answer->fault = (asked->is_rooted ? pcompact_begin_rooted : pcompact_begin)(
        words, asked->word_count, tail, asked->tail_count, settings, handles, asked->threads);
    if (answer->fault.number != 0) return answer->fault.number;
    run_workers(handles, asked->threads);
    return pcompact_end(handles, asked->threads, words, asked->word_count, tail, asked->tail_count, answer);
}

static uint32_t collect_in_place_by(const request *asked, uint64_t *words, uint64_t *tail, pcompact_answer *answer) {
    pcompact_settings settings = {asked->region_log, asked->allowance};
    pcompact_handle handles[MOST_THREADS] = {{false, NULL}};
    pcompact_regions regions = {NULL, 0};
    answer->fault = (asked->is_rooted ? pcompact_begin_in_place_rooted : pcompact_begin_in_place)(
        words, asked->word_count, tail, asked->tail_count, settings, handles, asked->threads, &regions);
    if (answer->fault.number != 0) return answer->fault.number;
    run_workers(handles, asked->threads);
    return pcompact_end_in_place(handles, asked->threads, &regions, tail, asked->tail_count, answer);
}

typedef uint32_t collecting(uint64_t *, size_t, uint64_t *, size_t, pcompact_settings, pcompact_answer *);

static uint32_t call(const request *asked, uint64_t *words, uint64_t *tail, pcompact_answer *answer) {
    static collecting *const by_copy[] = {pcompact_collect, pcompact_collect_rooted};
    static collecting *const in_place[] = {pcompact_collect_in_place, pcompact_collect_in_place_rooted};
    pcompact_settings settings = {asked->region_log, asked->allowance};
    size_t word_count = asked->word_count, tail_count = asked->tail_count;
    memset(answer, 0, sizeof *answer);
    if (asked->threads > MOST_THREADS) exit(2);
    switch (asked->call) {
    case SUMMARY: return pcompact_summary(words, word_count, tail, tail_count, settings, answer);
    case COLLECT: return by_copy[asked->is_rooted](words, word_count, tail, tail_count, settings, answer);
    case COLLECT_IN_PLACE: return in_place[asked->is_rooted](words, word_count, tail, tail_count, settings, answer);
    case COLLECT_BY_THREADS: return collect_copy_by(asked, words, tail, answer);
    default: return collect_in_place_by(asked, words, tail, answer);
    }
}

static void answer_request(const request *asked) {
    uint64_t *words = read_words(asked->word_count), *tail = read_words(asked->tail_count);
    pcompact_answer answer;
    reply it = {.returned = call(asked, words, tail, &answer)};
    it.number = answer.fault.number;
    it.field = answer.fault.field;
    it.place = answer.fault.place;
    it.filled_regions = answer.filled_regions;
    it.prefix_end = answer.prefix_end;
    it.new_top = answer.new_top;
    pcompact_fault_text(answer.fault, it.text, sizeof it.text);
    fwrite(&it, sizeof it, 1, stdout);
    fwrite(words, 8, asked->word_count, stdout);
    fwrite(tail, 8, asked->tail_count, stdout);
    if (fflush(stdout) != 0) exit(2);
    free(words);
    free(tail);
}

int main(void) {
    request asked;
    while (fread(&asked, sizeof asked, 1, stdin) == 1) answer_request(&asked);
    return ferror(stdin);
}
