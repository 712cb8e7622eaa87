#!/usr/bin/env bash
# Builds callers of the library for C and runs them: plainly, under the sanitizers for addresses and undefined behaviour, those
# with threads under that for threads, and under valgrind if it is there. The library is the one that fits the sources.
#
# usage: tests/c/test_c.sh
set -uo pipefail

cd "$(dirname -- "$(readlink -f -- "$0")")/../.."
. tests/support/callers.sh

# Writes the compaction of an example, as the model of tests/models finds it.
compact() {
    try python3 -c 'if True:
        import pathlib, sys
        from tests.models.image import Collection, decode, encode
        image = decode(pathlib.Path(sys.argv[1]).read_bytes())
        pathlib.Path(sys.argv[2]).write_bytes(encode(Collection(image).compaction()))' "examples/$1.pcheap" "$room/$1"
}

# Builds a caller from these files and options, plainly and with the sanitizers.
build() {
    local caller=$1
    shift
    build_c "$caller" -O2 "$@"
    build_c "$caller-checked" "${sanitized[@]}" "$@"
}

# Runs a caller on these words in each way.
run() {
    local caller=$1
    shift
    try "$room/$caller" "$@"
    try "$room/$caller-checked" "$@"
    try_watched "$room/$caller" "$@"
}

# Whether no program is linked that defines some of the three functions of memory alone.
refuses_half() {
    printf '%s\n' '#include "pcompact.h"' 'void rattle_dealloc(void *block) { (void)block; }' \
        'int main(void) { return (int)pcompact_version(); }' >"$room/half.c"
    ! "${CC:-cc}" "-I$library" "$room/half.c" "$library/libpcompact.a" -o "$room/half"
}

# Whether a limit has the value in C that it has in the crates.
has_limit() {
    python3 -c 'if True:
        import pathlib, re, sys
        def value_of(file):
            found = re.search(rf"\b{sys.argv[1]}\b[^=]*= ([^,;]+)", pathlib.Path(file).read_text())
            return eval(found[1])
        sys.exit(value_of("c/in_place.c") != value_of("crates/object_heap/src/limits.rt"))' "$1"
}

find_needs
try has_limit MAX_REGION_LOG_V3
try has_limit MAX_REGIONS_V3
for caller in hostile refusals; do
    build "$caller" "tests/c/$caller.c"
done
build calls -Itests/c tests/c/{calls,checks}.c
build image_calls -Itests/c tests/c/{image_calls,checks,refusing_heap}.c
build lent -Itests/c tests/c/{lent,refusing_heap}.c
build ends -Itests/c tests/c/{ends,refusing_heap}.c
build places -Itests/c tests/c/{places,checks}.c
build slide_refusals -Itests/c tests/c/{slide_refusals,opaque,refusing_heap}.c
build marking_refusals -Itests/c tests/c/{marking_refusals,coded,opaque,refusing_heap}.c
build marking -pthread -Itests/c tests/c/{marking,coded,opaque,refusing_heap}.c
build_c marking-raced -g -fsanitize=thread -pthread -Itests/c tests/c/{marking,coded,opaque,refusing_heap}.c
for caller in slide segments; do
    build "$caller" -pthread -Itests/c tests/c/{"$caller",opaque,refusing_heap}.c
    build_c "$caller-raced" -g -fsanitize=thread -pthread -Itests/c tests/c/{"$caller",opaque,refusing_heap}.c
done
for caller in threads lent_threads in_place checked; do
    build "$caller" -pthread -Itests/c tests/c/{"$caller",refusing_heap}.c
    build_c "$caller-raced" -g -fsanitize=thread -pthread -Itests/c tests/c/{"$caller",refusing_heap}.c
done
for example in base rooted; do
    compact "$example"
    run calls "examples/$example.pcheap" "$room/$example" 0 19 3
    run image_calls "examples/$example.pcheap" "$room/$example"
done
run hostile
run refusals
run ends
run places
try "$room/lent" 1000
run lent 100
run slide_refusals
run marking_refusals
for caller in slide segments marking; do
    try "$room/$caller" 2000
    run "$caller" 100
    try env TSAN_OPTIONS=suppressions=tests/c/threads.supp "$room/$caller-raced" 100
done
for caller in threads lent_threads in_place checked; do
    run "$caller"
    try env TSAN_OPTIONS=suppressions=tests/c/threads.supp "$room/$caller-raced"
done
try refuses_half
# With a stack of 96 KiB, of which the system takes some.
try env -i sh -c 'ulimit -s 96 && exec "$1"' sh "$room/refusals"
end
