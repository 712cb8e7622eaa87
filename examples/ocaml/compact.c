/* The heap compaction of OCaml 4.13 by libpcompact, in place and by several threads. tests/hosts/ocaml.sh builds OCaml's bytecode
 * runtime with it: do_compaction calls slide_heap in place of its passes that redirect and move.
 *
 * OCaml has marked its blocks. This file lists where they lie, and redirects what leads to them. The library says where each goes,
 * and moves it as it is: PCOMPACT_WORKERS says how many threads share that. */
#define CAML_INTERNALS
#include "caml/finalise.h"
#include "caml/memprof.h"
#include "caml/roots.h"
#include "caml/weak.h"
#include <pcompact.h>
#include <pthread.h>
#include <stdlib.h>

/* A region is a page of OCaml's, of which a chunk has a whole number. So it has PARTS parts that workers redirect. With MESSAGES in
 * `v` of OCAMLRUNPARAM each compaction says so. */
enum { REGION_LOG = Page_log - 3, MAX_REGIONS = 1 << 20, MAX_WORKERS = 64, PARTS = 64, MESSAGES = 0x1000 };

/* The chunks of OCaml's heap, by ascending addresses: none but in a compaction. No block crosses from one into the next, so each is
 * a slide. */
static pcompact_segments heap;

/* What the workers do now for each index below a count, and the next index that none has taken. */
static void (*task)(size_t worker, size_t i);
static size_t task_count;
static _Atomic size_t next_task;

static void *have(void *room) {
    if (!room) caml_fatal_error("pcompact: out of memory");
    return room;
}

static void check(pcompact_fault fault) {
    if (fault.number != 0) caml_fatal_error("pcompact: fault %d", (int)fault.number);
}

static size_t worker_count(void) {
    const char *text = getenv("PCOMPACT_WORKERS");
    size_t count = text ? strtoul(text, NULL, 10) : 1;
    return count < 1 ? 1 : count < MAX_WORKERS ? count : MAX_WORKERS;
}

static void list_chunks(void) {
    size_t count = Caml_state->stat_heap_chunks, workers = worker_count();
    heap = (pcompact_segments){.worker_count = workers, .dead = Val_unit};
    heap.slides = have(calloc(count, sizeof *heap.slides));
    heap.handles = have(calloc(pcompact_segment_handles(count, workers), sizeof *heap.handles));
    for (char *chunk = caml_heap_start; chunk; chunk = Chunk_next(chunk)) heap.slides[heap.segment_count++].words = (uint64_t *)chunk;
}

static void *do_tasks(void *worker) {
    for (size_t i; (i = next_task++) < task_count;) task((size_t)worker, i);
    return worker;
}

/* Has the workers do a task for each index, by this thread and by others as far as they can be started. */
static void share_work(void (*work)(size_t worker, size_t i), size_t count) {
    pthread_t threads[MAX_WORKERS];
    size_t started = 1;
    task = work, task_count = count, next_task = 0;
    while (started < heap.worker_count && pthread_create(&threads[started], NULL, do_tasks, (void *)started) == 0) started++;
    do_tasks(NULL);
    for (size_t i = 1; i < started; i++) pthread_join(threads[i], NULL);
}

static int is_live(header_t header) { return header != 0 && Is_white_hd(header); }

/* Lists the live blocks of a chunk, and plans. A live block has at least two words, and what a list doesn't use is no memory. With
 * an allowance of 0 all blocks slide, each to where those before it end. */
static void plan_chunk(size_t worker, size_t chunk) {
    pcompact_settings settings = {.region_log = REGION_LOG, .allowance = 0};
    pcompact_slide *slide = &heap.slides[chunk];
    size_t count = 0, word_count = Chunk_size(slide->words) / sizeof(uint64_t);
    uint64_t *words = slide->words, *live = have(malloc(word_count / 2 * sizeof *live));
    uint32_t *sizes = have(malloc(word_count / 2 * sizeof *sizes));
    for (size_t at = 0; at < word_count; at += Whsize_hd(words[at])) {
        if (!is_live(words[at])) continue;
        live[count] = at;
        sizes[count++] = Whsize_hd(words[at]);
    }
    check(pcompact_plan(words, word_count, live, sizes, count, settings, slide));
    free(live);
    free(sizes);
    (void)worker;
}

/* Redirects the fields of a chunk's live blocks that lie in one of its parts, but for numbers. What leads elsewhere stays. A value
 * may lead to an infix header inside a closure, which keeps its distance. Each field comes here once, as old and new places
 * overlap. */
static void redirect_part(size_t worker, size_t part) {
    uint64_t *words = heap.slides[part / PARTS].words;
    size_t count = heap.slides[part / PARTS].word_count / PARTS, start = part % PARTS * count, end = start + count;
    pcompact_handle *plan = pcompact_segment_handle(&heap, part / PARTS, worker);
    pcompact_batch batch = {.heap = &heap, .worker = worker};
    size_t at = pcompact_object_over(plan, start);
    if (at == SIZE_MAX) at = pcompact_next_object(plan, start);
    for (; at < end; at += Whsize_hd(words[at])) {
        if (!is_live(words[at]) || Tag_hd(words[at]) >= No_scan_tag) continue;
        size_t first = at + 1, behind = at + Whsize_hd(words[at]);
        if (Tag_hd(words[at]) == Closure_tag) first += Start_env_closinfo(Closinfo_val(Val_hp(words + at)));
        if (first < start) first = start;
        if (behind > end) behind = end;
        if (first < behind) pcompact_gather(&batch, words + first, behind - first, 1, 0);
    }
    pcompact_redirect_batch(&batch);
}

/* The runtime's walks over finalisers and sampled blocks end in caml_invert_root. Its own is what its own passes still need. */
void own_invert_root(value it, value *slot);

void caml_invert_root(value it, value *slot) {
    if (heap.segment_count == 0) own_invert_root(it, slot);
    if (heap.segment_count > 0) pcompact_redirect_segments(&heap, 0, (uint64_t *)slot, 1);
}

/* Everything outside of blocks that leads to them, and weak arrays, whose first field links them. */
static void redirect_roots(void) {
    caml_do_roots(caml_invert_root, 1);
    caml_final_invert_finalisable_values();
    caml_memprof_invert_tracked();
    for (value *link = &caml_ephe_list_head, array; (array = *link); link = &Field(array, 0)) {
        pcompact_redirect_segments(&heap, 0, (uint64_t *)&Field(array, 1), Wosize_val(array) - 1);
        pcompact_redirect_segments(&heap, 0, (uint64_t *)link, 1);
    }
}

/* Where no region is ready another worker has to go on, and may wait for this processor. */
static void fill(size_t worker, size_t part) {
    (void)worker;
    while (pcompact_work_segments(&heap, part, UINT64_MAX) == PCOMPACT_NONE_READY) sched_yield();
}

static void end_slides(void) {
    pcompact_answer *answers = have(malloc(heap.segment_count * sizeof *answers));
    check((pcompact_fault){.number = pcompact_end_segments(&heap, false, answers)});
    char *chunk = caml_heap_start;
    for (size_t i = 0; i < heap.segment_count; i++, chunk = Chunk_next(chunk)) Chunk_alloc(chunk) = Bsize_wsize(answers[i].new_top);
    free(answers);
    free(heap.slides);
    free(heap.handles);
    heap.segment_count = 0;
}

/* Whether chunks can be slid one by one. Where the runtime puts a new chunk first, out of order, it means to empty the others
 * into it, which only its own passes can. */
static int can_slide(void) {
    for (char *start = caml_heap_start; start; start = Chunk_next(start)) {
        if (Chunk_size(start) >> Page_log > MAX_REGIONS || (Chunk_next(start) && Chunk_next(start) < start)) return 0;
    }
    return 1;
}

/* Compacts the heap, whose live blocks are white. Returns whether it did: otherwise the runtime's own passes do. */
int slide_heap(void) {
    if (!can_slide()) return 0;
    list_chunks();
    share_work(plan_chunk, heap.segment_count);
    check(pcompact_share_segments(&heap));
    redirect_roots();
    share_work(redirect_part, PARTS * heap.segment_count);
    check(pcompact_begin_segments(&heap));
    share_work(fill, heap.worker_count);
    end_slides();
    caml_gc_message(MESSAGES, "Slid by libpcompact, %d workers\n", (int)worker_count());
    return 1;
}
