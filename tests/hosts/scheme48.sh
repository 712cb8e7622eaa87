#!/usr/bin/env bash
# Puts the library into a second runtime that exists: builds Scheme 48's virtual machine with examples/scheme48/compact.c in place
# of its collector, which copies, and runs a program of ours and Scheme 48's test suite with it, by 1 and by 4 workers. All must
# print what they do by the unchanged machine. Takes twenty minutes of one processor, and Debian's source package of
# Scheme 48: where that can't be fetched, all is skipped.
#
# usage: tests/hosts/scheme48.sh [--pauses] [scheme48_1.9.2.orig.tar.gz]
#   --pauses   only times collections of 1 and 10 million live words, beside the unchanged machine
set -uo pipefail

cd "$(dirname -- "$(readlink -f -- "$0")")/../.."
. tests/support/callers.sh
. tests/support/hosts.sh

scheme48=$room/scheme48
machine=scheme48vm
compacting=scheme48vm-pcompact

# Builds the machine with its heap of two spaces, the image, and what the test suite loads.
build_scheme48() (
    mkdir "$scheme48" && tar -xf "$1" -C "$scheme48" --strip-components=1 && cd "$scheme48" &&
        ./configure --enable-gc=twospace CFLAGS='-O2 -g -fcommon -w' && nice make
)

# Takes the collector out of the heap, whose variables our file uses, and has it take one space. The walks of heap and machine over
# their roots tell our file where these are: variables, and on the stack pointers into code.
patch_machine() {
    local replaced='collect\|extantP\|trace_\(value\|locationsB\|stob_contentsB\)' variable='\(s48_\)\?S[a-z0-9_]*S'
    sed -e "/^[a-z].*[^;]\$/s/ s48_\($replaced\)(/ own_\1(/" -e '1i long trace_root(long *);' \
        -e 's/^static \(.* \(Snewspace_beginS\|Sgc_\(count\|seconds\|mseconds\)S\);\)$/\1/' \
        -e "s/\( stob_[0-9]*X = \)\($variable\);/\1trace_root(\&\2);/" \
        -e 's/\(malloc((PS_SHIFT_LEFT_INLINE(heap_size_[0-9]*X, \)4/\13/' \
        -e 's/if (((Soldspace_beginS) == image_start_address_[0-9]*X))/if (0)/' c/scheme48-twospace-heap-64.c >patched-heap.c &&
        sed -e '1i long trace_root(long *);\nvoid trace_code(char *);' \
            -e 's/^static \(.* \(Sfinalizer_alistS\|Slast_code_pointer_resumedS\);\)$/\1/' \
            -e "s/s48_trace_value((\($variable\|\*((long \*) cell_[0-9]*X)\)))/trace_root(\&\1)/" \
            -e "s/s48_trace_value(v_[0-9]*X);SHARED_SETB((\($variable\)), v_[0-9]*X)/trace_root(\&\1)/" \
            -e 's/^  \*((long \*) \(cont_[0-9]*X\)) = .*/&trace_code(\1);/' c/scheme48vm-64.c >patched-vm.c
}

# Links the machine with these two, with our file, and with the library.
build_compacting() (
    words=("${CC:-cc}" -g -O2 -fcommon -DHAVE_CONFIG_H -D__COMPILING_SCHEME48_ITSELF__ -Ic -Ic/net -Ic/bibop)
    cd "$scheme48" && patch_machine && "${words[@]}" -w -DS48_HOST_ARCHITECTURE='"here"' -c patched-heap.c patched-vm.c &&
        "${words[@]}" -Wall -Wextra -Werror "-I$library" -c -o slide.o "$top/examples/scheme48/compact.c" &&
        cp c/libscheme48.a libpatched.a && ar d libpatched.a scheme48-twospace-heap-64.o scheme48vm-64.o &&
        "${words[@]}" -rdynamic c/main.o slide.o patched-heap.o patched-vm.o libpatched.a "$library/libpcompact.a" \
            $(sed -n 's/^LIBS = //p' Makefile) -pthread -o "$compacting"
)

# Has a machine run its test suite, as `make check` does, within an hour of a processor. It prints `ms)` where its profiler had
# time to take samples.
check_with() {
    (cd "$scheme48" && ulimit -t 3600 && exec make -s -o scheme48.image -o "$1" check "VM=$1") | sed 's/ms)//g'
}

# Has a machine with a heap of so many words run one of our programs, with a number of its own, once it has these structures.
feed_to() {
    local program=$2 words=$3 number=$4 structures=$5
    { printf ',batch\n,open primitives %s\n(define count %s)\n' "$structures" "$number" && cat "tests/hosts/$program.scm"; } |
        (cd "$scheme48" && exec "./$1" -i scheme48.image -h "$words")
}

# Runs one of these by the unchanged machine. What it printed, and its status, are kept.
run_plainly() {
    local command=$1
    shift
    "$command" "$machine" "$@" >"$room/plain" 2>"$room/plain-errors" </dev/null
    echo "status $?" >>"$room/plain-errors"
}

# Runs it with compactions by so many workers.
run_compacting() {
    local workers=$1 command=$2
    shift 2
    PCOMPACT_MESSAGES=1 PCOMPACT_WORKERS=$workers "$command" "$compacting" "$@" >"$room/slid" 2>"$room/slid-errors" </dev/null
    echo "status $?" >>"$room/slid-errors"
    take_slides "$workers"
}

# A program with all kinds of references, also in a heap above 32 MiB.
try_heaps() {
    local workers words
    for words in 3000000 9000000; do
        run_plainly feed_to heaps "$words" 5000 'weak tlc-tables'
        try grep -q '(finalised 124750)' "$room/plain"
        for workers in 1 4; do try is_same_slid "$workers" feed_to heaps "$words" 5000 'weak tlc-tables'; done
    done
    tell 'a program with all kinds of references'
}

try_suite() {
    local workers tests
    run_plainly check_with
    tests=$(grep -c '^ *(' "$room/plain-errors")
    try [ "$tests" -ge 400 ]
    for workers in 1 4; do try is_same_slid "$workers" check_with; done
    tell "$tests tests of Scheme 48's own"
}

# Prints the live words, and the least and average milliseconds of a collection.
time_pauses() {
    feed_to "$1" pauses "$2" "$3" 'architecture enumerated time' 2>"$room/said" | sed -n 's/^(pauses \(.*\)).*/\1/p'
}

show_pauses() {
    local words=$1 count=$2 workers live least average
    read -r live least average < <(time_pauses "$machine" "$words" "$count")
    printf '%s live words: %s ms (on average %s) by Scheme 48 itself\n' "$live" "$least" "$average"
    for workers in 1 4; do
        read -r live least average < <(PCOMPACT_WORKERS=$workers time_pauses "$compacting" "$words" "$count")
        printf '    %s ms (on average %s) by the library, threads: %s\n' "$least" "$average" "$workers"
    done
}

pauses=
[ "${1-}" != --pauses ] || { pauses=yes && shift; }
find_needs
find_sources "${1-}" scheme48 'scheme48_1.9.2.orig.tar.*' 'Scheme 48 1.9.2'
try build_scheme48 "$archive"
[ "$failed" = 0 ] && try build_compacting
[ "$failed" = 0 ] || end
if [ -n "$pauses" ]; then
    show_pauses 3000000 25000
    show_pauses 40000000 620000
else
    try_heaps
    try_suite
fi
end
