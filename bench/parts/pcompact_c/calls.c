/* Times collections by the library for C. Prints the nanoseconds of each, one round a line: of the whole, and by threads then of
 * its begin, of the work and of its end.
 *
 *     calls copy IMAGE OUT THREADS ROUNDS    each round collects a fresh heap by a call that copies it or, if THREADS isn't 0, by
 *                                            so many threads over a copy; the last one's image is written
 *     calls place IMAGE OUT THREADS ROUNDS   the same in place
 *     calls check IMAGE OUT THREADS ROUNDS   the same in place, where threads also check the heap
 *     calls lent IMAGE OUT THREADS ROUNDS    the same over lent regions
 *     calls small WAY ROUNDS                 each round collects a heap of 64 words with a live list, and one with roots */
#define _POSIX_C_SOURCE 199309L
#include <inttypes.h>
#include <pcompact.h>
#include <pthread.h>
#include <stdio.h>
#include <stdlib.h>
#include <string.h>
#include <time.h>

enum { MAX_THREADS = 64, FRONT_BYTES = 32, SMALL_WORDS = 64, CELL_WORDS = 4, SMALL_LIVE = SMALL_WORDS / CELL_WORDS / 2 };

/* A heap, with its live addresses in version 1, otherwise with its roots. */
typedef struct heap {
    pcompact_heap shape;
    uint64_t *words, *list;
} heap;

static void fail(const char *why) {
    fprintf(stderr, "calls: %s\n", why);
    exit(1);
}

static void fail_by(pcompact_fault fault) {
    uint8_t text[64];
    pcompact_fault_text(fault, text, sizeof text);
    fail((char *)text);
}

static void *room_for(size_t bytes) {
    void *room = malloc(bytes > 0 ? bytes : 1);
    if (!room) fail("memory");
    return room;
}

static uint64_t now(void) {
    struct timespec it;
    clock_gettime(CLOCK_MONOTONIC, &it);
    return (uint64_t)it.tv_sec * 1000000000 + (uint64_t)it.tv_nsec;
}

static heap new_heap(pcompact_heap shape) {
    return (heap){shape, room_for(8 * shape.word_count), room_for(8 * shape.count)};
}

static void copy_heap(heap *to, const heap *from) {
    memcpy(to->words, from->words, 8 * from->shape.word_count);
    memcpy(to->list, from->list, 8 * from->shape.count);
}

static void free_heap(heap *it) {
    free(it->words);
    free(it->list);
}

static uint8_t *read_file(const char *name, size_t *len) {
    FILE *file = fopen(name, "rb");
    if (!file || fseek(file, 0, SEEK_END) != 0) fail("the image can't be read");
    *len = (size_t)ftell(file);
    rewind(file);
    uint8_t *bytes = room_for(*len);
    if (fread(bytes, 1, *len, file) != *len) fail("the image can't be read");
    fclose(file);
    return bytes;
}

typedef uint32_t decoding(const uint8_t *, size_t, uint64_t *, size_t, uint64_t *, size_t, pcompact_heap *);

static heap read_heap(const char *name) {
    size_t len;
    uint8_t *bytes = read_file(name, &len);
    decoding *decode = len > 7 && bytes[7] == '1' ? pcompact_decode : pcompact_decode_rooted;
    pcompact_heap shape;
    uint64_t none;
    if (decode(bytes, len, &none, 0, &none, 0, &shape) != 0) fail_by(shape.fault);
    heap it = new_heap(shape);
    if (decode(bytes, len, it.words, shape.word_count, it.list, shape.count, &shape) != 0) fail_by(shape.fault);
    free(bytes);
    return it;
}

static void write_heap(const heap *it, const char *name) {
    const pcompact_heap *of = &it->shape;
    size_t len = FRONT_BYTES + 8 * (of->word_count + of->count);
    uint8_t *bytes = room_for(len);
    if (of->version == 1) {
        pcompact_encode(it->words, of->word_count, it->list, of->count, of->settings, bytes, len);
    } else {
        pcompact_encode_rooted(it->words, of->word_count, it->list, of->count, of->settings, bytes, len);
    }
    FILE *file = fopen(name, "wb");
    if (!file || fwrite(bytes, 1, len, file) != len || fclose(file) != 0) fail("the image can't be written");
    free(bytes);
}

/* How a heap is collected by one call, and by a number of threads. `parts` has room for its regions, which lending needs. */
typedef uint32_t one_call(heap *, pcompact_words *parts, pcompact_answer *);
typedef uint32_t by_threads(heap *, pcompact_words *parts, size_t thread_count, pcompact_answer *);

static uint32_t collect_copy(heap *it, pcompact_words *parts, pcompact_answer *answer) {
    const pcompact_heap *of = &it->shape;
    (void)parts;
    return (of->version == 1 ? pcompact_collect : pcompact_collect_rooted)(it->words, of->word_count, it->list, of->count,
                                                                           of->settings, answer);
}

static uint32_t collect_in_place(heap *it, pcompact_words *parts, pcompact_answer *answer) {
    const pcompact_heap *of = &it->shape;
    (void)parts;
    return (of->version == 1 ? pcompact_collect_in_place : pcompact_collect_in_place_rooted)(
        it->words, of->word_count, it->list, of->count, of->settings, answer);
}

static uint32_t collect_lent(heap *it, pcompact_words *parts, pcompact_answer *answer) {
    const pcompact_heap *of = &it->shape;
    size_t count = pcompact_cut(it->words, of->word_count, of->settings.region_log, parts);
    return (of->version == 1 ? pcompact_collect_lent : pcompact_collect_lent_rooted)(parts, count, it->list, of->count, of->settings,
                                                                                     answer);
}

static void *work(void *handle) {
    if (pcompact_work_all(handle) != PCOMPACT_SETTLED) fail("a worker has not settled");
    return NULL;
}

/* When something began and ended. */
typedef struct times {
    uint64_t begun, ended;
} times;

/* The work of the last collection by threads, behind its check. */
static times work_times;

/* Starts all workers once a begin had this fault. The calling thread is one of them. */
static void work_by(pcompact_fault begun, pcompact_handle *handles, size_t thread_count) {
    pthread_t threads[MAX_THREADS];
    if (begun.number != 0) fail_by(begun);
    work_times.begun = now();
    for (size_t i = 1; i < thread_count; i++) {
        if (pthread_create(&threads[i], NULL, work, &handles[i]) != 0) fail("a thread can't be started");
    }
    work(&handles[0]);
    for (size_t i = 1; i < thread_count; i++) pthread_join(threads[i], NULL);
    work_times.ended = now();
}

static uint32_t collect_copy_by(heap *it, pcompact_words *parts, size_t thread_count, pcompact_answer *answer) {
    const pcompact_heap *of = &it->shape;
    pcompact_handle handles[MAX_THREADS] = {{false, NULL}};
    (void)parts;
    work_by((of->version == 1 ? pcompact_begin : pcompact_begin_rooted)(it->words, of->word_count, it->list, of->count, of->settings,
                                                                        handles, thread_count),
            handles, thread_count);
    return pcompact_end(handles, thread_count, it->words, of->word_count, it->list, of->count, answer);
}

static uint32_t collect_in_place_by(heap *it, pcompact_words *parts, size_t thread_count, pcompact_answer *answer) {
    const pcompact_heap *of = &it->shape;
    pcompact_handle handles[MAX_THREADS] = {{false, NULL}};
    pcompact_regions regions = {NULL, 0};
    (void)parts;
    work_by((of->version == 1 ? pcompact_begin_in_place : pcompact_begin_in_place_rooted)(
                it->words, of->word_count, it->list, of->count, of->settings, handles, thread_count, &regions),
            handles, thread_count);
    return pcompact_end_in_place(handles, thread_count, &regions, it->list, of->count, answer);
}

static uint32_t collect_checked_by(heap *it, pcompact_words *parts, size_t thread_count, pcompact_answer *answer) {
    const pcompact_heap *of = &it->shape;
    pcompact_handle handles[MAX_THREADS] = {{false, NULL}};
    pcompact_regions regions = {NULL, 0};
    (void)parts;
    work_by((of->version == 1 ? pcompact_begin_check_in_place : pcompact_begin_check_in_place_rooted)(
                it->words, of->word_count, it->list, of->count, of->settings, handles, thread_count, &regions),
            handles, thread_count);
    work_by(pcompact_begin_checked_in_place(handles, thread_count, &regions), handles, thread_count);
    return pcompact_end_in_place(handles, thread_count, &regions, it->list, of->count, answer);
}

static uint32_t collect_lent_by(heap *it, pcompact_words *parts, size_t thread_count, pcompact_answer *answer) {
    const pcompact_heap *of = &it->shape;
    pcompact_handle handles[MAX_THREADS] = {{false, NULL}};
    size_t count = pcompact_cut(it->words, of->word_count, of->settings.region_log, parts);
    work_by((of->version == 1 ? pcompact_begin_lent : pcompact_begin_lent_rooted)(parts, count, it->list, of->count, of->settings,
                                                                                  handles, thread_count),
            handles, thread_count);
    return pcompact_end_lent(handles, thread_count, parts, count, it->list, of->count, answer);
}

/* The ways of the command line. */
static const struct way {
    const char *name;
    one_call *collect;
    by_threads *collect_by;
} ways[] = {
    {"copy", collect_copy, collect_copy_by},
    {"place", collect_in_place, collect_in_place_by},
    {"check", collect_in_place, collect_checked_by},
    {"lent", collect_lent, collect_lent_by},
};

static const struct way *way_of(const char *name) {
    for (size_t i = 0; i < sizeof ways / sizeof *ways; i++) {
        if (strcmp(ways[i].name, name) == 0) return &ways[i];
    }
    return NULL;
}

static times time_one(const struct way *by, heap *it, pcompact_words *parts, size_t thread_count) {
    pcompact_answer answer;
    times whole = {.begun = now()};
    uint32_t fault = thread_count == 0 ? by->collect(it, parts, &answer) : by->collect_by(it, parts, thread_count, &answer);
    whole.ended = now();
    if (fault != 0) fail_by(answer.fault);
    return whole;
}

static void print_times(times whole, bool has_work) {
    printf("%" PRIu64, whole.ended - whole.begun);
    if (has_work) {
        printf(" %" PRIu64 " %" PRIu64 " %" PRIu64, work_times.begun - whole.begun, work_times.ended - work_times.begun,
               whole.ended - work_times.ended);
    }
    putchar('\n');
}

static void time_heap(const struct way *by, char **words) {
    size_t thread_count = strtoul(words[2], NULL, 10), rounds = strtoul(words[3], NULL, 10);
    heap first = read_heap(words[0]), it = new_heap(first.shape);
    pcompact_words *parts = room_for(sizeof *parts * (first.shape.word_count >> first.shape.settings.region_log));
    for (size_t round = 0; round < rounds; round++) {
        copy_heap(&it, &first);
        print_times(time_one(by, &it, parts, thread_count), thread_count > 0);
    }
    write_heap(&it, words[1]);
    free(parts);
    free_heap(&first);
    free_heap(&it);
}

/* Cells of four words in regions of eight. Every second one lives, and refers to the next that does. */
static heap small_heap(uint32_t version) {
    pcompact_heap shape = {.version = version, .settings = {3, 0}, .word_count = SMALL_WORDS, .count = SMALL_LIVE};
    heap it = new_heap(shape);
    for (uint64_t a = 0; a < SMALL_WORDS; a += CELL_WORDS) {
        uint64_t next = a + 2 * CELL_WORDS;
        const uint64_t cell[CELL_WORDS] = {UINT64_C(1) << 56 | UINT64_C(1) << 32 | CELL_WORDS, next < SMALL_WORDS ? 1 + next : 0, a, a};
        memcpy(it.words + a, cell, sizeof cell);
    }
    for (uint64_t i = 0; i < SMALL_LIVE; i++) it.list[i] = (2 * i + 1) * CELL_WORDS + (version != 1);
    return it;
}

static void time_small(const struct way *by, size_t rounds) {
    heap live = small_heap(1), rooted = small_heap(2), one = new_heap(live.shape), other = new_heap(rooted.shape);
    pcompact_words parts[SMALL_WORDS / 8];
    for (size_t round = 0; round < rounds; round++) {
        copy_heap(&one, &live);
        copy_heap(&other, &rooted);
        times listed = time_one(by, &one, parts, 0), with_roots = time_one(by, &other, parts, 0);
        printf("%" PRIu64 " %" PRIu64 "\n", listed.ended - listed.begun, with_roots.ended - with_roots.begun);
    }
    free_heap(&live);
    free_heap(&rooted);
    free_heap(&one);
    free_heap(&other);
}

int main(int count, char **words) {
    bool is_small = count == 4 && strcmp(words[1], "small") == 0;
    const struct way *by = is_small ? way_of(words[2]) : count == 6 ? way_of(words[1]) : NULL;
    if (!by) fail("usage: calls copy|place|check|lent IMAGE OUT THREADS ROUNDS | calls small copy|place|check|lent ROUNDS");
    if (is_small) {
        time_small(by, strtoul(words[3], NULL, 10));
    } else {
        time_heap(by, words + 2);
    }
    return fflush(stdout) != 0;
}
