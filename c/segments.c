/* A heap in segments, of which each is a slide: these lines call those of slide.c for one after the other. They aren't proved. */
#include "pcompact.h"

/* A fault of docs/FORMATS.md, and the most workers of a slide. */
enum { WORKERS = 12, MOST_WORKERS = 64 };

static pcompact_fault fault_of(uint32_t number) {
    return (pcompact_fault){.number = number};
}

/* Whether a slot leads to a word of this segment. */
static bool leads_into(const pcompact_segments *heap, size_t segment, uint64_t slot) {
    const pcompact_slide *slide = &heap->slides[segment];
    uint64_t distance = slot - heap->tag - (uintptr_t)slide->words;
    return distance % sizeof(uint64_t) == 0 && distance < slide->word_count * sizeof(uint64_t);
}

/* The last segment that begins at or below what a slot leads to, or the first. Which that is can't be foreseen, so no branch hangs
 * on it. */
static size_t find_segment(const pcompact_segments *heap, uint64_t slot) {
    size_t first = 0;
    for (size_t count = heap->segment_count, half; count > 1; count -= half) {
        half = count / 2;
        first += (uintptr_t)heap->slides[first + half].words <= slot - heap->tag ? half : 0;
    }
    return first;
}

static void forget_plans(const pcompact_segments *heap) {
    for (size_t i = 0; i < heap->segment_count; i++) pcompact_forget_slide(&heap->slides[i]);
}

/* Forgets the workers' shares of a segment's plan. Returns 0, or 12 if some have parts of a slide. */
static uint32_t forget_shares(const pcompact_segments *heap, size_t segment) {
    uint32_t fault = 0;
    for (size_t i = 0; i < heap->worker_count; i++) fault |= pcompact_forget(pcompact_segment_handle(heap, segment, i));
    return fault;
}

pcompact_fault pcompact_plan_segments(const pcompact_segments *heap, const pcompact_segment *segments,
                                      pcompact_settings settings, size_t *segment) {
    for (*segment = 0; *segment < heap->segment_count; ++*segment) {
        if (heap->slides[*segment].plan.is_held || heap->slides[*segment].regions) return fault_of(WORKERS);
    }
    for (*segment = 0; *segment < heap->segment_count; ++*segment) {
        const pcompact_segment *it = &segments[*segment];
        pcompact_fault fault = pcompact_plan(it->words, it->word_count, it->live, it->sizes, it->live_count, settings,
                                             &heap->slides[*segment]);
        if (fault.number == 0) continue;
        forget_plans(heap);
        return fault;
    }
    return fault_of(0);
}

static pcompact_fault share_plan(const pcompact_segments *heap, size_t segment) {
    pcompact_fault fault = fault_of(0);
    for (size_t i = 0; i < heap->worker_count && fault.number == 0; i++) {
        fault = pcompact_share_plan(&heap->slides[segment].plan, pcompact_segment_handle(heap, segment, i));
    }
    return fault;
}

/* Whether a worker's handle of some segment is held. */
static bool is_some_held(const pcompact_segments *heap) {
    bool is_held = false;
    for (size_t i = 0; i < heap->segment_count * heap->worker_count; i++) {
        is_held |= pcompact_segment_handle(heap, i / heap->worker_count, i % heap->worker_count)->is_held;
    }
    return is_held;
}

pcompact_fault pcompact_share_segments(const pcompact_segments *heap) {
    if (is_some_held(heap)) return fault_of(WORKERS);
    pcompact_fault fault = fault_of(0);
    for (size_t i = 0; i < heap->segment_count && fault.number == 0; i++) fault = share_plan(heap, i);
    for (size_t i = 0; i < heap->segment_count && fault.number != 0; i++) forget_shares(heap, i);
    return fault;
}

/* Slots that are redirected at once, and the segment to which each leads: NOWHERE where it stays, or is redirected. */
enum { MOST_SLOTS = PCOMPACT_SLOTS };
static const size_t NOWHERE = ~(size_t)0;
struct batch {
    uint64_t *slots;
    size_t count, segments[MOST_SLOTS];
};

/* The segment to which a slot leads, most likely the first or the second of these. */
static size_t segment_of(const pcompact_segments *heap, size_t likely, size_t second, uint64_t slot) {
    if (leads_into(heap, likely, slot)) return likely;
    if (leads_into(heap, second, slot)) return second;
    size_t found = find_segment(heap, slot);
    return leads_into(heap, found, slot) ? found : NOWHERE;
}

/* Finds the segments of a batch. Returns the one to which all slots lead that lead to any, or NOWHERE if that isn't so. */
static size_t find_segments(const pcompact_segments *heap, struct batch *batch) {
    size_t first = find_segment(heap, batch->slots[0]), recent = first, before = first;
    bool are_alike = true;
    for (size_t i = 0; i < batch->count; i++) {
        size_t segment = segment_of(heap, recent, before, batch->slots[i]);
        batch->segments[i] = segment;
        if (segment == recent || segment == NOWHERE) continue;
        are_alike = false;
        before = recent;
        recent = segment;
    }
    return are_alike ? first : NOWHERE;
}

/* Redirects those of some slots that lead to a segment. */
static uint32_t redirect_into(const pcompact_segments *heap, size_t segment, size_t worker, uint64_t *slots, size_t slot_count) {
    const pcompact_slide *slide = &heap->slides[segment];
    pcompact_slot_coding coding = {(uintptr_t)slide->words + heap->tag, slide->word_count, heap->dead, 3};
    return pcompact_redirect(pcompact_segment_handle(heap, segment, worker), slots, slot_count, coding);
}

/* Redirects those slots that lead to one segment, of which the first has this index. */
static uint32_t redirect_alike(const pcompact_segments *heap, size_t worker, struct batch *batch, size_t first) {
    uint64_t slots[MOST_SLOTS];
    size_t taken[MOST_SLOTS], count = 0, segment = batch->segments[first];
    for (size_t i = first; i < batch->count; i++) {
        slots[count] = batch->slots[i];
        taken[count] = i;
        count += batch->segments[i] == segment;
    }
    uint32_t how = redirect_into(heap, segment, worker, slots, count);
    for (size_t i = 0; i < count; i++) {
        batch->slots[taken[i]] = slots[i];
        batch->segments[taken[i]] = NOWHERE;
    }
    return how;
}

/* Whether one of some slots leads to a segment. */
static bool leads_any(const struct batch *batch) {
    size_t i = 0;
    while (i < batch->count && batch->segments[i] == NOWHERE) i++;
    return i < batch->count;
}

static uint32_t redirect_batch(const pcompact_segments *heap, size_t worker, uint64_t *slots, size_t slot_count) {
    struct batch batch;
    uint32_t how = PCOMPACT_SETTLED;
    batch.slots = slots;
    batch.count = slot_count;
    size_t segment = find_segments(heap, &batch);
    if (segment != NOWHERE) return leads_any(&batch) ? redirect_into(heap, segment, worker, slots, slot_count) : how;
    for (size_t i = 0; i < slot_count; i++) {
        if (batch.segments[i] != NOWHERE) how |= redirect_alike(heap, worker, &batch, i);
    }
    return how;
}

uint32_t pcompact_redirect_segments(const pcompact_segments *heap, size_t worker, uint64_t *slots, size_t slot_count) {
    uint32_t how = PCOMPACT_SETTLED;
    for (size_t from = 0; from < slot_count && heap->segment_count > 0; from += MOST_SLOTS) {
        size_t rest = slot_count - from;
        how |= redirect_batch(heap, worker, &slots[from], rest < MOST_SLOTS ? rest : MOST_SLOTS);
    }
    return how;
}

uint32_t pcompact_redirect_segments_each(const pcompact_segments *heap, size_t worker, uint64_t *const *slots, size_t slot_count) {
    uint64_t values[MOST_SLOTS];
    uint32_t how = PCOMPACT_SETTLED;
    for (size_t from = 0; from < slot_count; from += MOST_SLOTS) {
        size_t count = slot_count - from < MOST_SLOTS ? slot_count - from : MOST_SLOTS;
        for (size_t i = 0; i < count; i++) values[i] = *slots[from + i];
        how |= pcompact_redirect_segments(heap, worker, values, count);
        for (size_t i = 0; i < count; i++) *slots[from + i] = values[i];
    }
    return how;
}

/* Begins a slide, and gives each worker its handle, which has no more than a share of the plan. */
static pcompact_fault begin_segment(const pcompact_segments *heap, size_t segment) {
    pcompact_handle handles[MOST_WORKERS] = {{false, NULL}};
    if (heap->worker_count > MOST_WORKERS || forget_shares(heap, segment) != 0) return fault_of(WORKERS);
    pcompact_fault fault = pcompact_begin_slide(&heap->slides[segment], handles, heap->worker_count);
    for (size_t i = 0; i < heap->worker_count; i++) *pcompact_segment_handle(heap, segment, i) = handles[i];
    return fault;
}

pcompact_fault pcompact_begin_segments(const pcompact_segments *heap) {
    pcompact_fault fault = fault_of(0);
    for (size_t i = 0; i < heap->segment_count && fault.number == 0; i++) {
        if (!heap->slides[i].regions) fault = begin_segment(heap, i);
    }
    return fault;
}

uint32_t pcompact_work_segments(const pcompact_segments *heap, size_t worker, uint64_t turns) {
    uint32_t all = PCOMPACT_SETTLED;
    for (size_t i = 0; i < heap->segment_count; i++) {
        uint32_t how = pcompact_work(pcompact_segment_handle(heap, (i + worker) % heap->segment_count, worker), turns);
        if (how == PCOMPACT_NOT_HELD) return how;
        if (how == PCOMPACT_TURNS_USED || all == PCOMPACT_SETTLED) all = how;
    }
    return all;
}

/* Ends a slide by its workers' handles. */
static uint32_t end_segment(const pcompact_segments *heap, size_t segment, bool clears, pcompact_answer *answer) {
    pcompact_handle handles[MOST_WORKERS];
    for (size_t i = 0; i < heap->worker_count; i++) handles[i] = *pcompact_segment_handle(heap, segment, i);
    uint32_t fault = pcompact_end_slide(&heap->slides[segment], handles, heap->worker_count, clears, answer);
    for (size_t i = 0; i < heap->worker_count; i++) *pcompact_segment_handle(heap, segment, i) = handles[i];
    return fault;
}

uint32_t pcompact_end_segments(const pcompact_segments *heap, bool clears, pcompact_answer *answers) {
    uint32_t fault = heap->worker_count > MOST_WORKERS ? WORKERS : 0;
    for (size_t i = 0; i < heap->segment_count && fault == 0; i++) {
        if (heap->slides[i].regions) fault = end_segment(heap, i, clears, &answers[i]);
    }
    return fault;
}

uint32_t pcompact_forget_segments(const pcompact_segments *heap) {
    for (size_t i = 0; i < heap->segment_count; i++) {
        if (heap->slides[i].regions) return WORKERS;
    }
    for (size_t i = 0; i < heap->segment_count; i++) forget_shares(heap, i);
    forget_plans(heap);
    return 0;
}
