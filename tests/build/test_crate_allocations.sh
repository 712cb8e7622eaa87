#!/bin/sh
# Runs tests of some crates with each of their allocations refused in turn. A test must pass, or end with
# out of memory: a failed assertion, another error, a signal or no end is wrong. Where a crate has a test
# refused_memory_is_reported, which looks at the answers itself, that one alone is run, and it must always pass. The last line
# counts the runs.
#
# usage: tests/build/test_crate_allocations.sh CRATE..      (after `rt test` in each; needs a C compiler)
set -u

top=$(dirname -- "$(dirname -- "$(dirname -- "$(readlink -f -- "$0")")")")
room=$(mktemp -d)
trap 'rm -rf "$room"; printf "%s passed, %s failed\n" "$((runs - failed))" "$failed"' EXIT
cc -shared -fPIC -O2 -o "$room/refuse.so" "$top/tests/faults/preload/refuse_allocation.c" || exit 2
runs=0
failed=0

# Runs a test with the allocation of this number refused; 0 refuses none.
refusing() {
    timeout 60 env "REFUSED=$2" "LD_PRELOAD=$room/refuse.so" "$tests" "$1" >"$room/out" 2>&1 3>"$room/asked"
    status=$?
    runs=$((runs + 1))
}

# Whether the test ended because memory ran out, and may.
is_memory() {
    case $1 in *refused_memory_is_reported) return 1 ;; esac
    [ "$status" = 101 ] && grep -qx 'error: \(AllocError\|AllocFailed { .. }\|Memory\)' "$room/out"
}

# Refuses each allocation of a test in turn.
each() {
    refusing "$1" 0
    if [ "$status" != 0 ]; then
        failed=$((failed + 1))
        printf '%s %s: fails with no allocation refused\n' "$crate" "$1"
        return
    fi
    count=$(cat "$room/asked")
    reported=0
    number=1
    while [ "$number" -le "$count" ]; do
        refusing "$1" "$number"
        if is_memory "$1"; then
            reported=$((reported + 1))
        elif [ "$status" != 0 ]; then
            failed=$((failed + 1))
            printf '%s %s: refusal of allocation %s: status %s: %s\n' "$crate" "$1" "$number" "$status" "$(cat "$room/out")"
        fi
        number=$((number + 1))
    done
    case $1 in
    *refused_memory_is_reported) printf '%s %s: %s allocations, each refused in turn\n' "$crate" "$1" "$count" ;;
    *) printf '%s %s: %s allocations, %s of their refusals are reported, the others change nothing\n' "$crate" "$1" "$count" "$reported" ;;
    esac
}

for crate in "$@"; do
    tests=$top/crates/$crate/out/${crate}_tests
    names=$("$tests" --list | sed -n 's/: test$//p')
    [ -n "$names" ] || { echo "$crate: no tests; run rt test there"; exit 2; }
    alone=$(printf '%s\n' "$names" | grep 'refused_memory_is_reported$')
    for name in ${alone:-$names}; do
        each "$name"
    done
done
[ "$failed" = 0 ]
