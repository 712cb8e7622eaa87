#!/usr/bin/env python3
"""How long one worker takes to fill all regions of the largest image, beside one move of the live words.

Builds `passes.rt.txt` (proved, by `rt`, with the crates below it) and the plain Rust program of `bench/end_to_end/plain`
(by `rustc`) in the scratch folder. That generates two images of 4,194,304 words in regions of 512, half of them live:
in `few` one of twenty words behind the headers is a reference, in `many` seven of ten. Then both programs run in turn,
each time in a process of its own. For each image it prints the median time of a pass of claims, fills and settlings
from region 0 up, and its ratio to one memmove of as many words as are live. Ends with status 1 where a ratio is above
the goal, or where a region could not be filled. A second run with the same scratch folder builds only what has changed.
"""
import argparse
import os
import pathlib
import statistics
import subprocess
import sys
import tempfile

here = pathlib.Path(__file__).resolve().parent
sys.dont_write_bytecode = True
sys.path.insert(0, str(here.parents[1]))
from building import TUNABLES, plain_program, proved

GOALS = {"few": 15, "many": 45}
REFERENCES = {"few": 5, "many": 70}


def build(scratch: pathlib.Path) -> tuple[pathlib.Path, pathlib.Path]:
    """Both programs, and the images in the folder of `passes`."""
    plain = plain_program(scratch)
    for name, percent in REFERENCES.items():
        words = ["--mib", 32, "--live", 50, "--log", 9, "--references", percent]
        image = scratch / "crates" / "passes" / name
        image.parent.mkdir(parents=True, exist_ok=True)
        subprocess.run([plain, "generate", image, *map(str, words)], check=True, stdout=subprocess.DEVNULL)
    return proved(scratch, here / "passes.rt.txt", "fill", may_wait=4), plain


def words_of(command: list, folder: pathlib.Path) -> list[list[str]]:
    """What a program printed, line by line and word by word."""
    done = subprocess.run(command, cwd=folder, check=True, capture_output=True, text=True)
    return [line.split() for line in done.stdout.splitlines()]


def round_of(passes: pathlib.Path, plain: pathlib.Path) -> dict[str, tuple[int, int]]:
    """Of each image the nanoseconds of a pass, and of a move of its live words."""
    answer = {}
    for name, nanoseconds, live, filled in words_of([passes], passes.parent.parent):
        if filled != "true":
            sys.exit(f"{name}: a region could not be filled")
        [[moved, _]] = words_of([plain, "move", live], passes.parent.parent)
        answer[name] = (int(nanoseconds), int(moved))
    return answer


parser = argparse.ArgumentParser(description=__doc__, formatter_class=argparse.RawDescriptionHelpFormatter)
parser.add_argument("--rounds", type=int, default=15, help="how often each program runs (15)")
parser.add_argument("--scratch", type=pathlib.Path, help="where to build (a folder among the temporary files)",
                    default=pathlib.Path(tempfile.gettempdir()) / "fill-bench")
asked = parser.parse_args()

os.environ.setdefault("GLIBC_TUNABLES", TUNABLES)
passes, plain = build(asked.scratch.resolve())
rounds = [round_of(passes, plain) for _ in range(asked.rounds)]
fine = True
for name, goal in GOALS.items():
    pass_time = statistics.median(r[name][0] for r in rounds) / 1e6
    ratio = statistics.median(r[name][0] / r[name][1] for r in rounds)
    fine = fine and ratio <= goal
    print(f"{name} references: {pass_time:.1f} ms, {ratio:.1f} moves of the live words (goal {goal})")
sys.exit(0 if fine else 1)
