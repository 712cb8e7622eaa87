#!/usr/bin/env bash
# Looks whether each file of the crates is as `rt fmt` writes it. The merge gate proves no crate with a file that isn't.
#
# usage: tests/build/test_layout.sh
set -uo pipefail

cd "$(dirname -- "$(readlink -f -- "$0")")/../.."
rattle=$(dirname -- "$(readlink -f -- "$(command -v rt)")")/rattle
find crates -name out -prune -o \( -name '*.rt' -o -name '*.antt' \) -print0 | xargs -0 -n 400 "$rattle" fmt --check &&
    echo '1 passed, 0 failed' || { echo '0 passed, 1 failed'; exit 1; }
