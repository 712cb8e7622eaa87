#!/usr/bin/env bash
# Puts the library into a runtime that exists: builds OCaml's bytecode runtime with examples/ocaml/compact.c in its compaction,
# and runs a program of ours, OCaml's compiler and programs of its test suite with a compaction after each major cycle, by 1 and
# by 4 workers. All must print and write what they do by the unchanged runtime. Takes some minutes of one processor, and Debian's
# source package of OCaml: where that can't be fetched, all is skipped.
#
# usage: tests/hosts/ocaml.sh [--pauses] [ocaml_4.13.1.orig.tar.gz]
#   --pauses   only times compactions of 1, 10 and 50 million live words, beside OCaml's own
set -uo pipefail

cd "$(dirname -- "$(readlink -f -- "$0")")/../.."
. tests/support/callers.sh
. tests/support/hosts.sh

ocaml=$room/ocaml
runtime=$ocaml/runtime/ocamlrun
compacting=$ocaml/runtime/ocamlrun-pcompact
# The same with OCaml's own passes.
timed=$ocaml/runtime/ocamlrun-timed
# A young generation and chunks as small as OCaml has them.
often=O=0,s=512,h=60k,i=4k,o=5
# No program of the test suite begins once so many seconds of a processor are used.
budget=480

# Builds what runs bytecode and the standard library, by the compiler that comes as bytecode.
build_ocaml() (
    mkdir "$ocaml" && tar -xf "$1" -C "$ocaml" --strip-components=1 && cd "$ocaml" &&
        ./configure --disable-{native-compiler,shared,systhreads,{debug,instrumented}-runtime,debugger,ocamldoc,ocamltest} &&
        nice make -j2 coldstart
)

# What OCaml's file calls to time a compaction.
timing='#include <time.h>
#define TIMED(step) do { \
    struct timespec begun, ended; \
    clock_gettime (CLOCK_MONOTONIC, &begun); \
    step; \
    clock_gettime (CLOCK_MONOTONIC, &ended); \
    caml_gc_message (0x2000, "compacted in %ld us\n", \
                     1000000 * (ended.tv_sec - begun.tv_sec) + (ended.tv_nsec - begun.tv_nsec) / 1000); \
} while (0)'

# Puts our call into compact.c, around the passes that redirect and move, and has each major cycle end in a compaction, of small
# heaps too. With 0x2000 in `v` of OCAMLRUNPARAM each says how many microseconds it took.
patch_compaction() {
    printf '%s\n' "$timing" >timed.h
    sed -e '1i #include "timed.h"' -e 's/^  \(do_compaction (new_allocation_policy)\);/  TIMED (\1);/' \
        -e 's/^void caml_invert_root (/int slide_heap (void);\nvoid own_invert_root (/' \
        -e 's|^  /\* Second pass: invert pointers\.|  if (!slide_heap ()) {\n&|' \
        -e 's|^  /\* Shrink the heap if needed\. \*/|  }\n&|' \
        -e '/(Caml_state->stat_major_collections < 3) return;/d' \
        -e '/(Caml_state->stat_heap_wsz <= 2 \* caml_clip_heap_chunk_wsz (0)) return;/d' compact.c >patched.c
}

# What stands in the place of our file where OCaml's own passes are to be timed.
own='#include "caml/mlvalues.h"
void own_invert_root (value it, value *slot);
void caml_invert_root (value it, value *slot) { own_invert_root (it, slot); }
int slide_heap (void) { return 0; }'

# Links the runtime with its compaction patched, with our file or none, and with the library.
build_compacting() (
    words=("${CC:-cc}" -g -O2 -fno-strict-aliasing -fwrapv -D_FILE_OFFSET_BITS=64 -DCAML_NAME_SPACE -I.)
    cd "$ocaml/runtime" && patch_compaction && "${words[@]}" -c patched.c &&
        "${words[@]}" -Wall -Wextra -Werror "-I$library" -c -o slide.o "$top/examples/ocaml/compact.c" &&
        printf '%s\n' "$own" >own.c && "${words[@]}" -c own.c && cp libcamlrun.a patched.a && ar d patched.a compact.b.o &&
        "${words[@]}" -Wl,-E prims.o patched.o slide.o patched.a "$library/libpcompact.a" -lm -ldl -pthread -o "$compacting" &&
        "${words[@]}" -Wl,-E prims.o patched.o own.o patched.a -lm -ldl -o "$timed"
)

compile() {
    "$runtime" "$ocaml/boot/ocamlc" -w -a -nostdlib -I "$ocaml/stdlib" -o "$1" "$2" >"$room/said" 2>&1
}

# Runs a program by the unchanged runtime. What it printed, and its status, are kept.
run_plainly() {
    (cd "$room/here" && ulimit -t 30 && exec "$runtime" "$@") >"$room/plain" 2>"$room/plain-errors" </dev/null
    echo "status $?" >>"$room/plain-errors"
}

# Runs it with compactions by so many workers, and these words in OCAMLRUNPARAM. A minute of a processor ends it with status 152.
run_compacting() {
    local workers=$1 parameters=v=0x1000,$2
    shift 2
    (cd "$room/here" && ulimit -St 60 && PCOMPACT_WORKERS=$workers OCAMLRUNPARAM=$parameters exec "$compacting" "$@") \
        >"$room/slid" 2>"$room/slid-errors" </dev/null
    echo "status $?" >>"$room/slid-errors"
    take_slides "$workers"
}

# A program with all kinds of references, in small chunks and in a heap that begins as one chunk of 64 MiB.
try_heaps() {
    local workers
    cp tests/hosts/heaps.ml "$room/here"
    try compile "$room/heaps" "$room/here/heaps.ml"
    run_plainly "$room/heaps" 5000
    for workers in 1 4; do
        try is_same_slid "$workers" "$often" "$room/heaps" 5000
        try is_same_slid "$workers" O=0,h=8M,o=1000 "$room/heaps" 5000
    done
    tell 'a program with all kinds of references'
}

# The compiler makes the same bytes of the largest file of the standard library.
try_compiler() {
    local workers file=camlinternalFormat
    local words=("$ocaml/boot/ocamlc" -w -a -nostdlib -I "$ocaml/stdlib" -c "$file.ml")
    cp "$ocaml/stdlib/$file.ml" "$room/here"
    run_plainly "${words[@]}"
    try mv "$room/here/$file.cmo" "$room/made"
    for workers in 1 4; do
        try is_same_slid "$workers" O=0,s=8k,i=128k "${words[@]}"
        try cmp "$room/made" "$room/here/$file.cmo"
    done
    tell 'the compiler'
}

# Whether the output of the unchanged runtime is what the test suite has for it.
is_reference() {
    sed '$d' "$room/plain-errors" | cat "$room/plain" - | cmp -s - "$1"
}

# Tries whether compactions by so many workers change what a program prints. A failure shows its name and the workers.
try_workers() {
    run_compacting "$1" "$often" "$room/program"
    if [ "$(tail -n 1 "$room/slid-errors")" = 'status 152' ]; then
        skip "$2 by $1 workers, which takes longer than a minute"
    else
        try is_same "$2" "$1"
    fi
}

# A program of the test suite, unless it needs more than the standard library, or says other things than its reference already by
# the unchanged runtime.
try_program() {
    local workers name=${1#"$ocaml/testsuite/tests/"}
    [ -f "${1%.ml}.reference" ] && compile "$room/program" "$1" || return
    run_plainly "$room/program"
    is_reference "${1%.ml}.reference" || return
    for workers in 1 4; do try_workers "$workers" "$name"; done
    programs=$((programs + 1))
    [ "$slides" = 0 ] || sliding=$((sliding + 1))
}

# Whether the commands so far took more time of processors than they may.
is_over_budget() {
    times >"$room/times"
    awk -F '[ms ]+' -v "most=$budget" 'NR == 2 { exit 60 * ($1 + $3) + $2 + $4 < most }' "$room/times"
}

try_suite() {
    local programs=0 sliding=0 file
    for file in "$ocaml"/testsuite/tests/*/*.ml; do
        if is_over_budget; then
            skip "${file#"$ocaml/testsuite/tests/"} and those behind it, as the time is up"
            break
        fi
        try_program "$file"
    done
    is_over_budget || try [ "$programs" -ge 100 ]
    tell "$programs programs of the test suite, of which $sliding were compacted"
}

# Prints a heap's live words and blocks, the shortest compaction in microseconds, and the most memory in KiB.
time_compactions() {
    OCAMLRUNPARAM=v=0x2000 "$1" "$room/pauses" "$2" 2>&1 | sed -n 's/^compacted in \(.*\) us/1 \1/p; s/^pauses /0 /p' | sort -n |
        awk '$1 == 0 { found = $2 " " $3; most = $4 } $1 == 1 && !least { least = $2 } END { print found, least, most }'
}

show_pauses() {
    local workers words blocks time most
    read -r words blocks time most < <(time_compactions "$timed" "$1")
    printf "%s live words, %s blocks: %s us by OCaml's own, %s KiB\n" "$words" "$blocks" "$time" "$most"
    for workers in 1 2 4; do
        read -r words blocks time most < <(PCOMPACT_WORKERS=$workers time_compactions "$compacting" "$1")
        printf '    %s us by the library, %s KiB, threads: %s\n' "$time" "$most" "$workers"
    done
}

time_pauses() {
    local lists
    cp tests/hosts/pauses.ml "$room/here"
    try compile "$room/pauses" "$room/here/pauses.ml"
    for lists in 140000 1400000 7000000; do show_pauses "$lists"; done
}

pauses=
[ "${1-}" != --pauses ] || { pauses=yes && shift; }
find_needs
find_sources "${1-}" ocaml 'ocaml_4.13.*.orig.tar.*' 'OCaml 4.13'
try build_ocaml "$archive"
[ "$failed" = 0 ] && try build_compacting
[ "$failed" = 0 ] || end
mkdir "$room/here"
export TMPDIR=$room/here
if [ -n "$pauses" ]; then
    time_pauses
else
    try_heaps
    try_compiler
    try_suite
fi
end
