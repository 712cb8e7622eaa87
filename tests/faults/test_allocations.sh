#!/bin/sh
# Runs the built program on some command lines with each of its allocations refused in turn, and
# looks at what it answers: the right output, or status 1 and `pcompact: fault 11 memory` alone,
# with nothing written to the files that the command makes. The image is the base heap with 2 dead
# words allowed, in each version; of version 3, which only its limits tell from 2, in a few commands.
#
# With two workers the number of allocations and the schedule may vary from run to run. So each
# number is tried three times there, numbers go up until no run comes that far, and a schedule is
# right where its replay ends in `finished`.
#
# usage: tests/faults/test_allocations.sh [PROGRAM]      (needs a C compiler)
set -u

top=$(dirname -- "$(dirname -- "$(dirname -- "$(readlink -f -- "$0")")")")
. "$top/sources.sh"
program=${1:-$(program_path)}
room=$(mktemp -d)
tries=0
failed=0
trap 'rm -rf "$room"; printf "%s passed, %s failed\n" "$((tries - failed))" "$failed"' EXIT
cc -shared -fPIC -O2 -o "$room/refuse.so" "$top/tests/faults/preload/refuse_allocation.c" || exit 2
printf 'pcompact: fault 11 memory\n' >"$room/memory"
mkdir "$room/made" "$room/right"
wrong=0

# Runs the program on the words with the allocation of this number refused; 0 refuses none.
refusing() {
    number=$1
    shift
    rm -f "$room/made/"*
    REFUSED=$number LD_PRELOAD=$room/refuse.so "$program" "$@" >"$room/out" 2>"$room/err" 3>"$room/asked"
    status=$?
    tries=$((tries + 1))
    asked=$(cat "$room/asked")
}

# Whether the schedule of two workers, where there should be one, replays to the end.
replays() {
    [ ! -e "$room/right/varying" ] ||
        [ "$("$program" replay "$image" "$room/made/varying" 2>&1 | tail -n 1)" = finished ]
}

is_right() {
    [ "$status" = "$right" ] && cmp -s "$room/out" "$room/right.out" && cmp -s "$room/err" "$room/right.err" &&
        diff -r -x varying "$room/made" "$room/right" >/dev/null && replays
}

is_memory() {
    [ "$status" = 1 ] && [ ! -s "$room/out" ] && cmp -s "$room/err" "$room/memory" &&
        [ -z "$(find "$room/made" -type f -size +0)" ]
}

# Keeps what the program answers of the words when nothing is refused.
keep_right() {
    refusing 0 "$@"
    right=$status
    mv "$room/out" "$room/right.out"
    mv "$room/err" "$room/right.err"
    rm -f "$room/right/"*
    cp -R "$room/made/." "$room/right"
}

# Refuses the allocation of this number. A run that came so far counts, and so does each fault.
refuse() {
    refusing "$@"
    [ "$number" -le "$asked" ] && came=1 && runs=$((runs + 1))
    if is_memory; then
        faults=$((faults + 1))
    elif ! is_right; then
        wrong=1
        failed=$((failed + 1))
        shift
        printf 'pcompact %s: refusal of allocation %s: status %s, neither the right output nor fault 11\n' "$*" "$number" "$status"
    fi
}

# Refuses each allocation in turn, so many times each, until no run comes that far.
each_of() {
    times=$1
    shift
    keep_right "$@"
    runs=0
    faults=0
    refused=0
    came=1
    while [ "$came" = 1 ]; do
        refused=$((refused + 1))
        came=0
        for _ in $(seq "$times"); do
            refuse "$refused" "$@"
        done
    done
    printf '%s runs with an allocation refused, of the first to number %s: %s end in fault 11, the others change nothing: pcompact %s\n' \
        "$runs" "$((refused - 1))" "$faults" "$*"
}

each() {
    each_of 1 "$@"
}

# The image with 2 dead words allowed.
allowing_two() {
    head -c 24 "$1"
    printf '\002\0\0\0\0\0\0\0'
    tail -c +33 "$1"
}

# Each command over an image.
over() {
    image=$1
    "$program" record "$image" "$room/after" "$room/schedule" --workers 1 >/dev/null || exit 2
    each summary "$image"
    each order "$image"
    each text "$image"
    "$program" text "$image" >"$room/lines" || exit 2
    each assemble "$room/lines" "$room/made/out"
    each assemble "$room/lines" "$room/made/out" --atomic
    head -c 100 "$room/lines" >"$room/cut_lines"
    each assemble "$room/cut_lines" "$room/made/out"
    each map "$image"
    each map "$image" --after
    each map "$image" --after --svg "$room/made/out"
    each collect "$image" "$room/made/out" --workers 1
    each_of 3 collect "$image" "$room/made/out" --workers 2
    each record "$image" "$room/made/out" "$room/made/schedule" --workers 1
    each_of 3 record "$image" "$room/made/out" "$room/made/varying" --workers 2
    each upgrade "$image" "$room/made/out"
    each replay "$image" "$room/schedule"
    each timeline "$image" "$room/schedule"
    each timeline "$image" "$room/schedule" --svg "$room/made/out"
    each timeline "$image" "$room/schedule" --html "$room/made/out"
    each verify "$image" "$room/after"
    each verify "$image" "$image"
}

each board
each board --steps
each --help
each --version
each help board
each
each boar
each board --workers 2
each board twice
dump=$top/examples/dumps/four.hprof
head -c 300 "$dump" >"$room/cut_dump"
weak=$room/weak_dump
(cd "$top" && python3 -B -c "import sys; from tests.cli.test_import import weak_dump; sys.stdout.buffer.write(weak_dump())") >"$weak" || exit 2
each import "$dump" "$room/made/out" --region-log 3
each import "$dump" "$room/made/out" --live-only
each import "$dump" "$room/made/out" --version 3
each import "$weak" "$room/made/out" --weak --pack
each import "$weak" "$room/made/out" --weak-soft --live-only
each import "$dump" "$room/made/out" --atomic
each import "$dump" "$room/made/out" --classes "$room/made/list" --histogram 5
each import "$dump" "$room/made/out" --classes "$room/made/list" --atomic
each import "$room/cut_dump" "$room/made/out"
each compare "$dump" "$dump" --explain
each compare "$dump" "$dump" --json
each compare "$dump" "$room/cut_dump"
each generate "$room/made/out" --words 64 --live 50 --region-log 3 --seed 1
each generate "$room/made/out" --words 64 --live 50 --region-log 4 --seed 1 --version 1
each generate "$room/made/out" --words 64 --live 50 --region-log 4 --seed 1 --version 3
each generate "$room/made/out" --words 64 --live 50 --region-log 3 --seed 1 --atomic
each generate "$room/made/out" --words 65 --live 50 --region-log 3 --seed 1
allowing_two "$top/examples/base.pcheap" >"$room/base"
over "$room/base"
"$top/tests/support/rooted_base.sh" >"$room/rooted"
allowing_two "$room/rooted" >"$room/rooted_base"
over "$room/rooted_base"
"$program" upgrade "$room/base" "$room/third" --to 3 >/dev/null || exit 2
each collect "$room/third" "$room/made/out" --workers 1
each upgrade "$room/third" "$room/made/out" --to 3
each upgrade "$room/third" "$room/made/out"
for root in 4 33; do
    "$top/tests/support/rooted_base.sh" "$root" >"$room/refused"
    each summary "$room/refused"
    each collect "$room/refused" "$room/made/out" --workers 1
done
exit "$wrong"
