#!/usr/bin/env bash
# Builds the examples in C, C++ and Rust that call the library, and runs them. The toy runtime is also run with a collection
# before each allocation, and by several threads, under the sanitizers for addresses, undefined behaviour and threads, and under
# valgrind if it is there.
#
# usage: tests/c/test_examples.sh
set -uo pipefail

cd "$(dirname -- "$(readlink -f -- "$0")")/../.."
. tests/support/callers.sh

# Runs a program, which must print just these lines.
prints() {
    local wanted=$1
    shift
    "$@" >"$room/printed" 2>"$room/told" && printf '%s\n' "$wanted" | diff - "$room/printed" && return
    cat "$room/told"
    return 1
}

# The toy runtime must collect, and print the same however often it does, and by however many threads.
try_lisp() {
    local lines='range
map
sum
adder
adders
call-each
repeat
(1 4 9 16 25 36 49 64 81 100)
230
(101 102 103 104 105)
(a (nested list) of symbols ())'
    local program=(-pthread examples/c/lisp.c examples/c/toy_heap.c)
    build_c lisp -O2 "${program[@]}"
    build_c lisp-checked "${sanitized[@]}" "${program[@]}"
    build_c lisp-raced -g -O1 -fsanitize=thread "${program[@]}"
    try prints "$lines" "$room/lisp" examples/c/lists.lisp
    try grep -q '^[1-9][0-9]* collections$' "$room/told"
    try prints "$lines" "$room/lisp" -g examples/c/lists.lisp
    try prints "$lines" "$room/lisp-checked" examples/c/lists.lisp
    try prints "$lines" "$room/lisp-checked" -g examples/c/lists.lisp
    try_watched "$room/lisp" examples/c/lists.lisp
    try_threads "$lines"
}

# The same by four threads. The sanitizer for threads sees how the library copies words, and not the atomic steps between its
# copies: those it leaves out.
try_threads() {
    local file=examples/c/lists.lisp
    try prints "$1" "$room/lisp" -t 4 "$file"
    try grep -q '^[1-9][0-9]* collections$' "$room/told"
    try prints "$1" "$room/lisp-checked" -t 4 "$file"
    try prints "$1" env TSAN_OPTIONS=ignore_interceptors_accesses=1 "$room/lisp-raced" -t 4 "$file"
    try_watched "$room/lisp" -t 4 "$file"
}

try_first() {
    build_c first -O2 examples/c/first.c
    build_c first-checked "${sanitized[@]}" examples/c/first.c
    local lines='the first free address is 6
a cell at 3 with 33
a cell at 0 with 22'
    try prints "$lines" "$room/first"
    try prints "$lines" "$room/first-checked"
    try_watched "$room/first"
}

# Tagged values and headers of its own, which the library marks: many collections lose nothing.
try_tagged() {
    local lines='one 1
two 2
three 3
the word behind three 4'
    build_c tagged -O2 examples/c/tagged.c
    build_c tagged-checked "${sanitized[@]}" examples/c/tagged.c
    try prints "$lines" "$room/tagged"
    try grep -q '^[1-9][0-9][0-9] collections$' "$room/told"
    try prints "$lines" "$room/tagged-checked"
    try_watched "$room/tagged"
}

try_cpp() {
    command -v "${CXX:-c++}" >/dev/null || { skip 'the example in C++, as there is no compiler'; return; }
    local words=(-std=c++11 -Wall -Wextra -pedantic -Werror "-I$library" examples/cpp/collect.cpp "$library/libpcompact.a")
    try "${CXX:-c++}" -O2 "${words[@]}" -o "$room/collect"
    try "${CXX:-c++}" "${sanitized[@]}" "${words[@]}" -o "$room/collect-checked"
    local lines='top 6 root 3
fault 7 header at 0
top without roots 0'
    try prints "$lines" "$room/collect"
    try prints "$lines" "$room/collect-checked"
    try_watched "$room/collect"
}

# Without a registry, and without a file in the repository.
try_rust() {
    command -v cargo >/dev/null || { skip 'the example in Rust, as there is no cargo'; return; }
    try env "CARGO_TARGET_DIR=$room/target" "PCOMPACT_LIB=$library" RUSTFLAGS=-Dwarnings \
        cargo test --offline --locked --manifest-path examples/rust/Cargo.toml
}

find_needs
try_first
try_lisp
try_tagged
try_cpp
try_rust
end
