#!/usr/bin/env python3
"""A mark-compact collector of heap images, and seven bugs to give it: collector.py IMAGE OUT [BUG]"""
import struct
import sys

data, bug = open(sys.argv[1], "rb").read(), sys.argv[3] if len(sys.argv) > 3 else None
magic, log, count, size, allowance = struct.unpack_from("<8sIIQQ", data)
words = list(struct.unpack_from(f"<{size}Q", data, 32))
listed = list(struct.unpack_from(f"<{count}Q", data, 32 + 8 * size))


def end(a):
    return a + (words[a] & 0xFFFFFFFF)


def fields(a):
    return range(a + 1, a + 1 + (words[a] >> 32 & 0xFFFFFF))


# Mark. Version 1 lists the live objects; later ones have roots.
todo, marked = ([root - 1 for root in listed if root] if magic != b"PCHEAP01" else listed), set()
while todo:
    marked.update(todo)
    todo = list({words[q] - 1 for a in todo for q in fields(a) if words[q]} - marked)
live = sorted(marked)
used = {q for a in live for q in range(a, end(a))}
dead = lambda b: sum(q not in used for q in range(b))
prefix = max((b for b in range(0, end(live[-1]) + 1, 1 << log) if dead(b) <= allowance)) if live else 0
# Plan.
new, top = {}, prefix
for a in live:
    new[a] = a if a < prefix else top
    top = max(top, new[a] + end(a) - a) + (bug == "plan" and a == live[-2])
# Move, and redirect references.
forward = {0: new[live[0]] + 1 if bug == "null" else 0, **{a + 1: new[a] + 1 for a in live}}
out = words[:] if bug == "free" else [0] * size
references = {q for a in live for q in fields(a)}
if bug == "reference":
    references -= set(sorted(q for q in references if forward[words[q]] != words[q])[:1])
for a in live:
    moved = [forward[words[q]] if q in references else words[q] for q in range(a, end(a))]
    out[new[a]:new[a] + len(moved)] = moved[:-1] + [0] if bug == "data" and a == live[-1] else moved
# Fill the gaps of the dense prefix.
for p in sorted(set(range(prefix)) - used):
    gap = next((q for q in range(p, prefix) if q in used), prefix) - p
    out[p] = (2 << 56 | gap + (bug == "filler")) if p == 0 or p - 1 in used else 0
tail = [forward[root] for root in listed] if magic != b"PCHEAP01" else [new[a] for a in live]
for i in [i for i in range(count) if bug == "root" and tail[i] != listed[i]][:1]:
    tail[i] = listed[i]
open(sys.argv[2], "wb").write(data[:32] + struct.pack(f"<{size + count}Q", *out, *tail))
