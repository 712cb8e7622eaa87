#!/usr/bin/env python3
"""How long the marks and the plan of the largest image take, beside one copy of its words.

Builds `plans.rt.txt` (proved, by `rt`, with the crates below it) and the plain Rust program of `bench/end_to_end/plain`
(by `rustc`) in the scratch folder. That generates an image of 4,194,304 words in regions of 512, half of them live. Then both
programs run in turn, each time in a process of its own: `plans` on 1, 2 and 4 processors, as many of them as there are,
since regions are counted by a thread for each. Prints for each number of processors the median times of `Marks::of`
and `Plan::of`, the medians of their ratios to one memmove of all words in the same round, and the ratios of the least
times. Ends with status 1 where two plans have different new tops. A second run with the same scratch folder builds only
what has changed. Where other processes keep the processors busy, `chrt -f 1 bench/parts/summary/run.py`, as root, goes
before them.
"""
import argparse
import os
import pathlib
import statistics
import subprocess
import sys
import tempfile

here = pathlib.Path(__file__).resolve().parent
sys.dont_write_bytecode = True
sys.path.insert(0, str(here.parents[1]))
from building import TUNABLES, plain_program, proved

PROCESSORS = (1, 2, 4)
# What a round finds for each number of processors, by index.
MARKS, PLAN, COPY, TOP = range(4)
WORDS = 4_194_304


def build(scratch: pathlib.Path) -> tuple[pathlib.Path, pathlib.Path]:
    """Both programs, and the image in the folder of `plans`."""
    plain = plain_program(scratch)
    image = scratch / "crates" / "plans" / "image"
    image.parent.mkdir(parents=True, exist_ok=True)
    words = ["--mib", 32, "--live", 50, "--log", 9, "--references", 5]
    subprocess.run([plain, "generate", image, *map(str, words)], check=True, stdout=subprocess.DEVNULL)
    return proved(scratch, here / "plans.rt.txt", "summary"), plain


def numbers_of(command: list, folder: pathlib.Path, processors: list[int]) -> list[int]:
    """The numbers that a program printed, run on these processors alone."""
    done = subprocess.run(command, cwd=folder, check=True, capture_output=True, text=True,
                          preexec_fn=lambda: os.sched_setaffinity(0, processors))
    return [int(word) for word in done.stdout.split()]


def round_of(plans: pathlib.Path, plain: pathlib.Path, processors: list[int]) -> tuple[int, int, int, int]:
    """The nanoseconds of the marks, of the plan and of a copy of all words, and the new top."""
    folder = plans.parent.parent
    marked, planned, new_top = numbers_of([plans], folder, processors)
    copied, _ = numbers_of([plain, "move", str(WORDS)], folder, processors)
    return marked, planned, copied, new_top


parser = argparse.ArgumentParser(description=__doc__, formatter_class=argparse.RawDescriptionHelpFormatter)
parser.add_argument("--rounds", type=int, default=15, help="how often each program runs for each line (15)")
parser.add_argument("--scratch", type=pathlib.Path, help="where to build (a folder among the temporary files)",
                    default=pathlib.Path(tempfile.gettempdir()) / "summary-bench")
asked = parser.parse_args()

os.environ.setdefault("GLIBC_TUNABLES", TUNABLES)
plans, plain = build(asked.scratch.resolve())
there = sorted(os.sched_getaffinity(0))
counts = [count for count in PROCESSORS if count <= len(there)]
rounds = [{count: round_of(plans, plain, there[:count]) for count in counts} for _ in range(asked.rounds)]


def figures(count: int, part: int) -> str:
    """The median time, the median of the ratios to a copy, and the ratio of the least times."""
    times, copies = ([r[count][of] for r in rounds] for of in (part, COPY))
    ratio = statistics.median(time / copy for time, copy in zip(times, copies))
    return f"{statistics.median(times) / 1e6:.1f} ms, {ratio:.2f} copies, at best {min(times) / min(copies):.2f}"


for count in counts:
    print(f"{count} of {len(there)} processors: marks {figures(count, MARKS)}; plan {figures(count, PLAN)}")
new_tops = {r[count][TOP] for r in rounds for count in counts}
if len(new_tops) != 1:
    sys.exit(f"the plans have the new tops {sorted(new_tops)}")
