#!/bin/sh
# Runs the built program on some command lines with each of its calls on files failing in turn, as
# opens, reads and writes. It must answer status 1 and `pcompact: fault 13 input or output`, with details alone behind it, and with
# a beginning of the right bytes in each file that the command makes; or all must be right, where it can do
# without that call, as with the one that tells whether an image's file is a regular one. Where it can't be found out whether a file
# is standard output, what is printed goes to standard error. Where what fails is a write to
# standard error, the status must stay, and a beginning of the right text stand there. And with each
# read and write moving one byte, all must be right.
#
# usage: tests/faults/test_devices.sh [PROGRAM]      (needs a C compiler)
set -u

top=$(dirname -- "$(dirname -- "$(dirname -- "$(readlink -f -- "$0")")")")
. "$top/sources.sh"
program=${1:-$(program_path)}
room=$(mktemp -d)
tries=0
failed=0
trap 'rm -rf "$room"; printf "%s passed, %s failed\n" "$((tries - failed))" "$failed"' EXIT
cc -shared -fPIC -O2 -o "$room/fail.so" "$top/tests/faults/preload/fail_device.c" || exit 2
printf 'pcompact: fault 13 input or output\n' >"$room/fault"
base=$top/examples/base.pcheap
mkdir "$room/made" "$room/right"
wrong=0

# Runs the program on the words with the call of this number failing; 0 lets none fail.
failing() {
    number=$1
    shift
    rm -f "$room/made/"*
    FAILED=$number LD_PRELOAD=$room/fail.so "$program" "$@" >"$room/out" 2>"$room/err" 3>"$room/made_calls"
    status=$?
    tries=$((tries + 1))
}

# Keeps what the program answers of the words when nothing fails.
keep_right() {
    failing 0 "$@"
    right=$status
    mv "$room/out" "$room/right.out"
    mv "$room/err" "$room/right.err"
    rm -f "$room/right/"*
    cp -R "$room/made/." "$room/right"
    count=$(cat "$room/made_calls")
}

is_right() {
    [ "$status" = "$right" ] && cmp -s "$room/out" "$room/right.out" && cmp -s "$room/err" "$room/right.err" &&
        diff -r "$room/made" "$room/right" >/dev/null
}

# Whether the first file has a beginning of the second one.
begins() {
    cmp -s -n "$(wc -c <"$1")" "$1" "$2"
}

# Whether each file that was made has a beginning of the right bytes.
are_beginnings() {
    for file in "$room/made/"*; do
        [ -e "$file" ] || continue
        begins "$file" "$room/right/${file##*/}" || return 1
    done
}

# Whether the fault stands on standard error, and behind it nothing but details.
says_fault() {
    head -n 1 "$room/err" | cmp -s - "$room/fault" &&
        ! sed 1d "$room/err" | grep -qvE '^pcompact: (file [A-Z]+ |standard output$|(call|reason) )'
}

is_fault() {
    [ "$status" = 1 ] && [ ! -s "$room/out" ] && says_fault && are_beginnings
}

# Whether a command that writes to standard error wrote only a beginning there, and nothing else changed.
is_cut_short() {
    [ -s "$room/right.err" ] && [ "$status" = "$right" ] && [ ! -s "$room/out" ] && begins "$room/err" "$room/right.err"
}

# Whether all is right, but what is printed stands on standard error, as some file was written.
is_on_errors() {
    [ "$status" = "$right" ] && [ ! -s "$room/out" ] && [ -n "$(ls "$room/made")" ] &&
        cat "$room/right.err" "$room/right.out" | cmp -s - "$room/err" && diff -r "$room/made" "$room/right" >/dev/null
}

say_wrong() {
    wrong=1
    failed=$((failed + 1))
    printf 'pcompact %s: %s: status %s: %s\n' "$words" "$1" "$status" "$(cat "$room/err")"
}

# Lets each call of the program on these words fail in turn.
each() {
    words=$*
    keep_right "$@"
    for at in $(seq "$count"); do
        failing "$at" "$@"
        is_fault || is_cut_short || is_right || is_on_errors || say_wrong "call $at of $count failed"
    done
    failing 0 "$@"
    is_right || say_wrong 'run again'
    export ONE=1
    failing 0 "$@"
    is_right || say_wrong 'byte by byte'
    unset ONE
    printf '%s calls fail in turn: pcompact %s\n' "$count" "$words"
}

# Each command over an image and over its first bytes.
over() {
    "$program" record "$1" "$room/after" "$room/schedule" --workers 1 >/dev/null || exit 2
    head -c 100 "$1" >"$room/cut"
    each summary "$1"
    each order "$1"
    each text "$1"
    "$program" text "$1" >"$room/lines" || exit 2
    head -c 100 "$room/lines" >"$room/cut_lines"
    each assemble "$room/lines" "$room/made/out"
    each assemble "$room/cut_lines" "$room/made/out"
    each map "$1" --after
    each map "$1" --after --svg "$room/made/out"
    each summary "$room/cut"
    each collect "$1" "$room/made/out" --workers 1
    each collect "$1" "$room/made/out" --workers 2
    each collect "$1" "$room/made/out" --workers 2 --region-log 4 --allowance 3
    each collect "$1" "$room/made/out"
    each record "$1" "$room/made/out" "$room/made/schedule" --workers 1
    each upgrade "$1" "$room/made/out"
    each replay "$1" "$room/schedule"
    each timeline "$1" "$room/schedule"
    each timeline "$1" "$room/schedule" --svg "$room/made/out"
    each timeline "$1" "$room/schedule" --html "$room/made/out"
    each verify "$1" "$room/after"
    each verify "$1" "$1"
}

each board
each board --steps
each --help
each boar
dump=$top/examples/dumps/four.hprof
head -c 300 "$dump" >"$room/cut_dump"
each import "$dump" "$room/made/out" --region-log 3
each import "$dump" "$room/made/out" --live-only
each import "$dump" "$room/made/out" --version 3 --weak --pack
each import "$dump" "$room/made/out" --classes "$room/made/list" --histogram 5
each import "$room/cut_dump" "$room/made/out"
each compare "$dump" "$dump"
each compare "$dump" "$room/cut_dump"
each generate "$room/made/out" --words 64 --live 50 --region-log 3 --seed 1
each generate "$room/made/out" --words 64 --live 50 --region-log 4 --seed 1 --version 1
each generate "$room/made/out" --words 64 --live 50 --region-log 4 --seed 1 --version 3
each generate "$room/made/out" --words 65 --live 50 --region-log 3 --seed 1
over "$base"
"$top/tests/support/rooted_base.sh" >"$room/rooted"
over "$room/rooted"
"$program" upgrade "$base" "$room/third" --to 3 >/dev/null || exit 2
each collect "$room/third" "$room/made/out" --workers 1
each upgrade "$room/third" "$room/made/out" --to 3
each upgrade "$room/third" "$room/made/out"
"$top/tests/support/rooted_base.sh" 4 >"$room/unsound"
each collect "$room/unsound" "$room/made/out" --workers 1
exit "$wrong"
