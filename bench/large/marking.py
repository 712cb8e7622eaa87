#!/usr/bin/env python3
"""How marking by several threads does on large heaps: a random graph, a tree, a list in order, and a list that hops.

Builds `marks.rt.txt` (proved, by `rt`), makes an image of version 3 of each shape by the plain program of
`bench/end_to_end/plain`, half live, and marks each in memory by `mark_from_roots` alone and with 1, 2
and 4 workers: the live list and the check of the live objects included, files not. Prints the median milliseconds, and the
goals of docs/SPEED.md. A heap of n MiB takes about 2.5 n of memory and 5 n of disk.

Ends with status 1 where two ways to mark gave different live lists, or where a goal is missed.
"""
import argparse
import itertools
import os
import pathlib
import statistics
import subprocess
import sys
import tempfile

here = pathlib.Path(__file__).resolve().parent
sys.dont_write_bytecode = True
sys.path.insert(0, str(here.parent))
from building import TUNABLES, plain_program, proved

SHAPES = ("graph", "tree", "chain", "list")
ALONE, WORKERS = "0", ("1", "2", "4")
Times = dict[tuple[str, str], list[int]]


def generate(plain: pathlib.Path, folder: pathlib.Path, mib: int) -> None:
    for shape in SHAPES:
        words = ["--mib", mib, "--live", 50, "--log", 12, "--references", 40, "--version", 3, "--shape", shape]
        subprocess.run([plain, "generate", folder / shape, *map(str, words)], check=True, stdout=subprocess.DEVNULL)


def mark(program: pathlib.Path, folder: pathlib.Path, rounds: int) -> Times:
    """Of each shape and number of workers the nanoseconds that it took, in each round, each in a process of its own."""
    times: Times = {}
    lists: dict[str, set[str]] = {}
    for _, shape, workers in itertools.product(range(rounds), SHAPES, (ALONE, *WORKERS)):
        done = subprocess.run([program, shape, workers], cwd=folder, check=True, capture_output=True, text=True)
        nanoseconds, seen = done.stdout.split()
        times.setdefault((shape, workers), []).append(int(nanoseconds))
        lists.setdefault(shape, set()).add(seen)
    if any(len(found) != 1 for found in lists.values()):
        sys.exit(f"the live lists differ: {lists}")
    return times


def ratio(times: Times, shape: str, workers: str, other: str) -> float:
    pairs = zip(times[shape, workers], times[shape, other])
    return statistics.median(one / two for one, two in pairs)


def main() -> None:
    parser = argparse.ArgumentParser(description=__doc__, formatter_class=argparse.RawDescriptionHelpFormatter)
    parser.add_argument("--mib", type=int, default=1024, help="the size of each heap (1024)")
    parser.add_argument("--rounds", type=int, default=3, help="how often each heap is marked (3)")
    parser.add_argument("--scratch", type=pathlib.Path, help="where to build (a folder among the temporary files)",
                        default=pathlib.Path(tempfile.gettempdir()) / "marking-bench")
    asked = parser.parse_args()

    os.environ.setdefault("GLIBC_TUNABLES", TUNABLES)
    scratch = asked.scratch.resolve()
    generate(plain_program(scratch), scratch, asked.mib)
    times = mark(proved(scratch, here / "marks.rt.txt", "heap_image"), scratch, asked.rounds)
    print("| shape | `mark_from_roots` | 1 worker | 2 | 4 |\n|---|---|---|---|---|")
    for shape in SHAPES:
        cells = [f"{statistics.median(times[shape, workers]) / 1e6:.0f}" for workers in (ALONE, *WORKERS)]
        print(f"| {shape} | {' | '.join(cells)} |")
    goals = [("4 workers to one, graph", ratio(times, "graph", "4", "1"), 0.4)]
    goals += [(f"{workers} workers to mark_from_roots, {shape}", ratio(times, shape, workers, ALONE), 1.2)
              for shape in SHAPES[1:] for workers in WORKERS]
    for what, found, goal in goals:
        print(f"{what}: {found:.2f}, goal {goal}: {'kept' if found <= goal else 'missed'}")
    sys.exit(any(found > goal for _, found, goal in goals))


if __name__ == "__main__":
    main()
