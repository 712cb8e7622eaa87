#!/usr/bin/env bash
# Tries the wrong bodies that the language itself refuses, before any proof: each file
# crates/NAME/refused/WHAT.edit, on a copy of the repository. Its lines `file:`, `old:` and `new:` are
# those of a must-fail edit; `error:` is what the compiler must then say. One a processor is tried at a time.
#
# usage: tests/edits/refused.sh
set -uo pipefail

top=$(dirname -- "$(dirname -- "$(dirname -- "$(readlink -f -- "$0")")")")
room=$(mktemp -d)
trap 'rm -rf "$room"' EXIT

# Tries one of these edits, in a folder of its own, and says what came of it.
try_edit() {
    local edit=$1 copy=$2 crate file tests said
    crate=$(basename -- "$(dirname -- "$(dirname -- "$edit")")")
    mkdir "$copy"
    tar -C "$top" --exclude=out --exclude=proofs --exclude=.git -cf - crates crates.txt HANDLES | tar -C "$copy" -xf -
    field() { sed -n "s/^$1: //p" "$edit"; }
    file=$copy/crates/$crate/$(field file)
    OLD=$(field old) NEW=$(field new) perl -0pi -e '
        $n = () = /\Q$ENV{OLD}\E/g;
        die "the old text stands $n times\n" unless $n == 1;
        s/\Q$ENV{OLD}\E/$ENV{NEW}/' "$file" || return
    # The first crate of tests that uses the crate, or the crate of tests itself.
    tests=$(sed -nE "s/^([a-z_]*_tests)[: ](.* )?$crate( .*)?\$/\1/p" "$top/crates.txt" | head -n 1)
    said=$(cd "$copy/crates/${tests:-$crate}" && rt try --test 2>&1)
    if [[ $said == *"$(field error)"* ]]; then
        echo "$crate $(basename -- "$edit" .edit): refused"
    else
        echo "$crate $(basename -- "$edit" .edit): NOT refused by: $(field error)"
        grep -m3 error <<<"$said"
    fi
}

tries=0
for edit in "$top"/crates/*/refused/*.edit; do
    tries=$((tries + 1))
    [ "$(jobs -rp | wc -l)" -lt "$(nproc)" ] || wait -n
    try_edit "$edit" "$room/copy-$tries" >"$room/said-$tries" 2>&1 &
done
wait
cat "$room"/said-*
refused=$(cat "$room"/said-* | grep -c ': refused$')
echo "$refused passed, $((tries - refused)) failed"
[ "$refused" = "$tries" ]
