#!/bin/sh
# Prints the base heap as an image of version 2: the words of examples/base.pcheap, and two roots.
#
# usage: tests/support/rooted_base.sh [ROOT]      (the first root, at most 255: 21, which leads to all objects; the other is null)
set -u

base=$(dirname -- "$(dirname -- "$(dirname -- "$(readlink -f -- "$0")")")")/examples/base.pcheap
printf 'PCHEAP02\003\0\0\0\002\0\0\0'
tail -c +17 "$base" | head -c 272
printf %b "\\0$(printf %03o "${1:-21}")"
head -c 15 /dev/zero
