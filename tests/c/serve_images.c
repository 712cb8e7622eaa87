/* Answers requests of test_seeded_images.py: reads a call, the numbers of a heap and the bytes of two images, makes the call,
 * and writes its answer and all that the call was given. Numbers are little endian, as those of the machine.
 *
 * usage: serve_images */
#include "pcompact.h"
#include <stdio.h>
#include <stdlib.h>

enum { NEW_ADDRESSES, NEW_ADDRESSES_ROOTED, VERIFY, ENCODE, ENCODE_ROOTED, DECODE, DECODE_ROOTED };

/* The lists of a request, in the order in which they follow it. */
enum { WORDS, TAIL, REFERENCES, BEFORE, AFTER, LISTS };

static const size_t element_bytes[LISTS] = {8, 8, 8, 1, 1};

typedef struct request {
    uint32_t call, region_log;
    uint64_t allowance, counts[LISTS];
} request;

typedef struct reply {
    uint64_t returned;
    pcompact_fault fault;
    pcompact_verdict verdict;
    pcompact_heap heap;
    uint8_t text[64];
} reply;

static void *lists[LISTS];

/* Blocks of exactly these sizes, as a tool that watches memory sees. */
static void read_lists(const request *asked) {
    for (int i = 0; i < LISTS; i++) {
        lists[i] = malloc(element_bytes[i] * asked->counts[i]);
        if (!lists[i] || fread(lists[i], element_bytes[i], asked->counts[i], stdin) != asked->counts[i]) exit(2);
    }
}

static void write_lists(const request *asked) {
    for (int i = 0; i < LISTS; i++) {
        fwrite(lists[i], element_bytes[i], asked->counts[i], stdout);
        free(lists[i]);
    }
}

typedef size_t encoding(const uint64_t *, size_t, const uint64_t *, size_t, pcompact_settings, uint8_t *, size_t);
typedef uint32_t decoding(const uint8_t *, size_t, uint64_t *, size_t, uint64_t *, size_t, pcompact_heap *);

static uint64_t encode_by(encoding *encode, const uint64_t *n, pcompact_settings settings) {
    return encode(lists[WORDS], n[WORDS], lists[TAIL], n[TAIL], settings, lists[BEFORE], n[BEFORE]);
}

static uint64_t decode_by(decoding *decode, const uint64_t *n, reply *it) {
    uint32_t fault = decode(lists[BEFORE], n[BEFORE], lists[WORDS], n[WORDS], lists[TAIL], n[TAIL], &it->heap);
    it->fault = it->heap.fault;
    return fault;
}

typedef pcompact_fault redirecting(const uint64_t *, size_t, const uint64_t *, size_t, pcompact_settings, uint64_t *, size_t);

static void redirect_by(redirecting *redirect, const uint64_t *n, pcompact_settings settings, reply *it) {
    it->fault = redirect(lists[WORDS], n[WORDS], lists[TAIL], n[TAIL], settings, lists[REFERENCES], n[REFERENCES]);
    it->returned = it->fault.number;
}

static void make_call(const request *asked, reply *it) {
    const uint64_t *n = asked->counts;
    pcompact_settings settings = {asked->region_log, asked->allowance};
    switch (asked->call) {
    case NEW_ADDRESSES: redirect_by(pcompact_new_addresses, n, settings, it); return;
    case NEW_ADDRESSES_ROOTED: redirect_by(pcompact_new_addresses_rooted, n, settings, it); return;
    case VERIFY:
        it->returned = pcompact_verify(lists[BEFORE], n[BEFORE], lists[AFTER], n[AFTER], &it->verdict);
        it->fault = it->verdict.fault;
        return;
    case ENCODE: it->returned = encode_by(pcompact_encode, n, settings); return;
    case ENCODE_ROOTED: it->returned = encode_by(pcompact_encode_rooted, n, settings); return;
    case DECODE: it->returned = decode_by(pcompact_decode, n, it); return;
    default: it->returned = decode_by(pcompact_decode_rooted, n, it);
    }
}

int main(void) {
    request asked;
    while (fread(&asked, sizeof asked, 1, stdin) == 1) {
        reply it = {0};
        read_lists(&asked);
        make_call(&asked, &it);
        pcompact_fault_text(it.fault, it.text, sizeof it.text);
        fwrite(&it, sizeof it, 1, stdout);
        write_lists(&asked);
        if (fflush(stdout) != 0) exit(2);
    }
    return ferror(stdin);
}
