/* Times slides of opaque objects by one thread: a heap of objects of 4 words, half of them live. Prints the least nanoseconds a live
 * object of some rounds, for the plan, and from the plan to the end.
 *
 * usage: slides MIWORDS REGION_LOG ROUNDS */
#define _POSIX_C_SOURCE 199309L
#include <pcompact.h>
#include <stdio.h>
#include <stdlib.h>
#include <time.h>

enum { OBJECT_WORDS = 4 };

static void fail(const char *why) {
    fprintf(stderr, "slides: %s\n", why);
    exit(1);
}

static double now(void) {
    struct timespec time;
    clock_gettime(CLOCK_MONOTONIC, &time);
    return 1e9 * (double)time.tv_sec + (double)time.tv_nsec;
}

/* Every second object lives, by chance. Returns how many do. */
static size_t list_objects(size_t word_count, uint64_t *live, uint32_t *sizes) {
    size_t count = 0;
    uint32_t seed = 12345;
    for (size_t at = 0; at < word_count; at += OBJECT_WORDS) {
        seed = seed * 1103515245 + 12345;
        if (seed >> 16 & 1) continue;
        live[count] = at;
        sizes[count++] = OBJECT_WORDS;
    }
    return count;
}

int main(int argc, char **argv) {
    if (argc != 4) fail("wants MIWORDS REGION_LOG ROUNDS");
    size_t word_count = strtoul(argv[1], NULL, 10) << 20, most = word_count / OBJECT_WORDS;
    pcompact_settings settings = {(uint32_t)strtoul(argv[2], NULL, 10), 0};
    uint64_t *words = calloc(word_count, sizeof *words), *live = malloc(most * sizeof *live);
    uint32_t *sizes = malloc(most * sizeof *sizes);
    if (!words || !live || !sizes) fail("memory");
    size_t count = list_objects(word_count, live, sizes);
    double plan = 1e18, all = 1e18;
    for (unsigned long rounds = strtoul(argv[3], NULL, 10); rounds > 0; rounds--) {
        pcompact_slide slide = {0};
        pcompact_handle worker = {0};
        pcompact_answer answer;
        double start = now();
        if (pcompact_plan(words, word_count, live, sizes, count, settings, &slide).number != 0) fail("no plan");
        double planned = now();
        if (pcompact_begin_slide(&slide, &worker, 1).number != 0) fail("no begin");
        pcompact_work_all(&worker);
        if (pcompact_end_slide(&slide, &worker, 1, false, &answer) != 0) fail("no end");
        double end = now();
        if (planned - start < plan) plan = planned - start;
        if (end - start < all) all = end - start;
    }
    printf("%.1f ns an object, %.1f of them for the plan\n", all / (double)count, plan / (double)count);
    return 0;
}
