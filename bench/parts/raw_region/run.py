#!/usr/bin/env python3
"""How fast `Region` moves blocks of 4,096 words, beside std's slice calls in plain Rust.

Builds `moves.rt.txt` (proved, by `rt`) and `plain.rs` (by `rustc -O`) in the scratch folder, and runs them in turn.
For each call of `Region` it prints the least time of std's call divided by its own: above 1.00 `Region` is faster.
Ends with status 1 where a ratio is below the goal, or where the two programs read different words. A second run with
the same scratch folder builds only what has changed.
"""
import argparse
import pathlib
import subprocess
import sys
import tempfile

here = pathlib.Path(__file__).resolve().parent
sys.dont_write_bytecode = True
sys.path.insert(0, str(here.parents[1]))
from building import compiled, proved

GOAL = 0.8
CALLS = [("copy_from", "copy_from_slice"), ("slide", "copy_within"), ("fill", "fill")]


def build(scratch: pathlib.Path) -> tuple[pathlib.Path, pathlib.Path]:
    return proved(scratch, here / "moves.rt.txt", "raw_region"), compiled(here / "plain.rs", scratch / "plain")


def run(program: pathlib.Path) -> dict[str, tuple[int, int]]:
    """Of each call the nanoseconds that its rounds took, and a sum of the words that they read."""
    lines = subprocess.run([program], check=True, capture_output=True, text=True).stdout.splitlines()
    return {name: (int(nanoseconds), int(seen)) for name, nanoseconds, seen in map(str.split, lines)}


parser = argparse.ArgumentParser(description=__doc__, formatter_class=argparse.RawDescriptionHelpFormatter)
parser.add_argument("--rounds", type=int, default=15, help="how often each program runs (15)")
parser.add_argument("--scratch", type=pathlib.Path, help="where to build (a folder among the temporary files)",
                    default=pathlib.Path(tempfile.gettempdir()) / "raw_region-bench")
asked = parser.parse_args()

moves, plain = build(asked.scratch.resolve())
rounds = [(run(moves), run(plain)) for _ in range(asked.rounds)]
fine = True
for ours, theirs in CALLS:
    ratio = min(r[1][theirs][0] for r in rounds) / min(r[0][ours][0] for r in rounds)
    same = all(r[0][ours][1] == r[1][theirs][1] for r in rounds)
    fine = fine and same and ratio >= GOAL
    print(f"{ours} {ratio:.2f} of {theirs}" + ("" if same else ", but they read different words"))
sys.exit(0 if fine else 1)
