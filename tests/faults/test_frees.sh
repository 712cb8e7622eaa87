#!/bin/sh
# Runs the built program on some command lines, and looks that it frees each block that it takes: on a run
# in which nothing fails, and with each allocation refused in turn. A block that isn't freed is printed with
# its number among those asked for, its bytes and the place in the program. Then it leaves frees out, each
# in turn, which it must notice.
#
# usage: tests/faults/test_frees.sh [PROGRAM]      (needs a C compiler)
set -u

top=$(dirname -- "$(dirname -- "$(dirname -- "$(readlink -f -- "$0")")")")
. "$top/sources.sh"
program=${1:-$(program_path)}
room=$(mktemp -d)
trap 'rm -rf "$room"' EXIT
cc -shared -fPIC -O2 -o "$room/count.so" "$top/tests/faults/preload/count_frees.c" || exit 2
cc -shared -fPIC -O2 -o "$room/refuse.so" "$top/tests/faults/preload/refuse_allocation.c" || exit 2
base=$top/examples/base.pcheap
passed=0
failed=0

# Runs the program on the words; the libraries named in $with are loaded first, and file 3 goes to the room.
run() {
    LD_PRELOAD=$with "$program" "$@" >"$room/out" 2>"$room/err" 3>"$room/blocks"
}

# Runs the program on the words, and looks whether all that was asked for and given is freed. What fails is printed by this name.
frees() {
    what=$1
    shift
    run "$@"
    read -r asked freed <"$room/blocks" || asked=
    if [ -n "$asked" ] && ! grep -q '^block' "$room/blocks"; then
        passed=$((passed + 1))
    else
        failed=$((failed + 1))
        printf 'pcompact %s: %s: not freed:\n' "$*" "$what"
        sed -n '2,9p' "$room/blocks"
    fi
}

# Lets the program run through on the words, and then refuses each allocation in turn.
each() {
    with=$room/count.so
    frees 'nothing refused' "$@"
    printf '%s blocks asked for, %s freed: pcompact %s\n' "$asked" "$freed" "$*"
    with=$room/refuse.so
    run "$@"
    count=$(cat "$room/blocks")
    with="$room/count.so $room/refuse.so"
    for number in $(seq "$count"); do
        export REFUSED="$number"
        frees "allocation $number refused" "$@"
    done
    unset REFUSED
}

# Leaves out each free in turn, of which one block must be told.
notices() {
    with=$room/count.so
    run "$@"
    read -r _ freed <"$room/blocks"
    for number in $(seq "$freed"); do
        export KEPT="$number"
        run "$@"
        if [ "$(grep -c '^block' "$room/blocks")" = 1 ]; then
            passed=$((passed + 1))
        else
            failed=$((failed + 1))
            printf 'pcompact %s: free %s left out is not noticed\n' "$*" "$number"
        fi
    done
    unset KEPT
    printf '%s frees left out in turn: pcompact %s\n' "$freed" "$*"
}

"$program" record "$base" "$room/after" "$room/schedule" --workers 1 >/dev/null || exit 2
head -c 100 "$base" >"$room/cut"
dump=$top/examples/dumps/four.hprof
head -c 300 "$dump" >"$room/cut_dump"
each board
each board --steps
each --help
each boar
each summary "$base"
each order "$base"
each order "$room/cut"
"$program" text "$base" >"$room/lines" || exit 2
head -c 100 "$room/lines" >"$room/cut_lines"
each text "$base"
each text "$room/cut"
each assemble "$room/lines" "$room/made"
each assemble "$room/lines" "$room/made" --atomic
each assemble "$room/cut_lines" "$room/made"
each map "$base" --after
each map "$base" --svg "$room/made"
each map "$base" --svg "$room/made" --atomic
each map "$room/cut" --svg "$room/made"
each summary "$room/cut"
each summary "$room/nothing"
each collect "$base" "$room/made" --workers 1
each collect "$base" "$room/made" --workers 2
each collect "$base" "$room/made"
each collect "$base" "$room/made" --workers 1 --stats
each collect "$room/cut" "$room/made" --workers 2
each record "$base" "$room/made" "$room/made_schedule" --workers 1
each record "$base" "$room/made" "$room/made_schedule" --workers 2
each upgrade "$base" "$room/made"
each upgrade "$room/cut" "$room/made"
each upgrade "$base" "$room/made" --atomic
each upgrade "$room/cut" "$room/made" --atomic
each record "$base" "$room/made" "$room/made_schedule" --workers 1 --atomic
each import "$dump" "$room/made" --region-log 3
each import "$dump" "$room/made" --live-only --atomic --weak
each import "$dump" "$room/made" --classes "$room/made_schedule" --histogram 5
each import "$room/cut_dump" "$room/made"
each compare "$dump" "$dump" --explain
each compare "$dump" "$room/cut_dump"
each generate "$room/made" --words 64 --live 50 --region-log 3 --seed 1
each generate "$room/made" --words 64 --live 50 --region-log 3 --seed 1 --version 1 --atomic
each generate "$room/made" --words 65 --live 50 --region-log 3 --seed 1
each replay "$base" "$room/schedule"
each replay "$base" "$base"
each timeline "$base" "$room/schedule"
each timeline "$base" "$room/schedule" --svg "$room/made"
each timeline "$base" "$room/schedule" --html "$room/made" --atomic
each timeline "$base" "$room/cut" --html "$room/made"
each verify "$base" "$room/after"
each verify "$base" "$base"
notices collect "$base" "$room/made" --workers 1
printf '%s passed, %s failed\n' "$passed" "$failed"
[ "$failed" = 0 ]
