#!/usr/bin/env python3
"""How many claims and drains a second a `Board` of 16,384 regions takes, beside a board of atomics in plain Rust.

Builds `fills.rt.txt` (proved, by `rt`, with the crates below it) and `plain.rs` (by `rustc -O`) in the scratch folder,
and runs them in turn, with 1, 2 and 4 threads, in two modes. `indexed`: ours has an `IndexedMoves`, and theirs the first
source of each region at hand. `searched`: both search the table of moves handed in for each source. Each run takes the
fastest of its boards. Prints for each mode and number of threads the median of the claims and drains a second of
`Board`, and the median of the rounds' ratios, ours divided by theirs: above 1.00 `Board` is faster. Ends with status 1
where a ratio of the mode `indexed` is below the goal, or where the two made different numbers of steps. A second run
with the same scratch folder builds only what has changed.
"""
import argparse
import itertools
import pathlib
import statistics
import subprocess
import sys
import tempfile

here = pathlib.Path(__file__).resolve().parent
sys.dont_write_bytecode = True
sys.path.insert(0, str(here.parents[1]))
from building import compiled, proved

GOAL = 0.8
MODES = ["indexed", "searched"]
THREADS = ["1", "2", "4"]


def build(scratch: pathlib.Path) -> tuple[pathlib.Path, pathlib.Path]:
    return proved(scratch, here / "fills.rt.txt", "claim_board"), compiled(here / "plain.rs", scratch / "plain")


def run(program: pathlib.Path) -> dict[tuple[str, str], tuple[int, int]]:
    """Of each mode and number of threads the least nanoseconds of a board, and how many steps were made."""
    lines = subprocess.run([program], check=True, capture_output=True, text=True).stdout.splitlines()
    return {(mode, threads): (int(nanoseconds), int(steps))
            for mode, threads, nanoseconds, steps in map(str.split, lines)}


parser = argparse.ArgumentParser(description=__doc__, formatter_class=argparse.RawDescriptionHelpFormatter)
parser.add_argument("--rounds", type=int, default=5, help="how often each program runs (5)")
parser.add_argument("--scratch", type=pathlib.Path, help="where to build (a folder among the temporary files)",
                    default=pathlib.Path(tempfile.gettempdir()) / "claim_board-bench")
asked = parser.parse_args()

fills, plain = build(asked.scratch.resolve())
rounds = [(run(fills), run(plain)) for _ in range(asked.rounds)]
fine = True
for mode, threads in itertools.product(MODES, THREADS):
    key = mode, threads
    ours = statistics.median(r[0][key][0] for r in rounds)
    ratio = statistics.median(r[1][key][0] / r[0][key][0] for r in rounds)
    steps = rounds[0][0][key][1]
    same = all(r[0][key][1] == r[1][key][1] for r in rounds)
    fine = fine and same and (ratio >= GOAL or mode != "indexed")
    print(f"{mode}, {threads} threads: {steps * 1e3 / ours:.0f} million a second, {ratio:.2f} of plain Rust"
          + ("" if same else ", but they made different numbers of steps"))
sys.exit(0 if fine else 1)
