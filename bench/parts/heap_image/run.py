#!/usr/bin/env python3
"""How fast the largest image is decoded, encoded, read, written and marked, beside plain Rust with the same checks.

Builds `codec.rt.txt` (proved, by `rt`), `plain.rs` and `marking.rs` (by `rustc -O`) in the scratch folder, generates an
image of 4,194,304 words in regions of 512, half of them live, and runs the programs in turn, each time in a process of
its own. For each call it prints the median time of heap_image and of plain Rust, their ratio (above 1.00 heap_image is
slower), and the ratio to one copy of the 32 MiB of words. Plain Rust does all by one thread; `decode_by_many` and
`read_image_by_many` check the live objects by all processors. Marking is of one thread, over three heaps of version
2: with few references, with many, and a linked list of a million objects in random order. Ends with status 1 where a
ratio to plain Rust is above the goal, or where two programs made different images or live lists. A second run with the
same scratch folder builds only what has changed.
"""
import argparse
import itertools
import pathlib
import statistics
import subprocess
import sys
import tempfile

here = pathlib.Path(__file__).resolve().parent
sys.dont_write_bytecode = True
sys.path.insert(0, str(here.parents[1]))
from building import compiled, proved

# Of each call the goal for its ratio to plain Rust.
CALLS = dict.fromkeys(["decode", "decode_by_many", "encode"], 1.6)
CALLS |= dict.fromkeys(["read_image", "read_image_by_many", "write_image"], 1.6)
# Of each heap to mark what its generator is told besides its size.
HEAPS = {"few": ["--references", "5"], "many": ["--references", "70"], "list": ["--references", "0", "--shape", "list"]}
GOALS = CALLS | dict.fromkeys(HEAPS, 1.3)


def build(scratch: pathlib.Path) -> tuple[pathlib.Path, list[list]]:
    """Our program and the commands of the plain ones, and the images in the folder of `codec`."""
    folder = scratch / "crates" / "codec"
    folder.mkdir(parents=True, exist_ok=True)
    plain = compiled(here / "plain.rs", scratch / "plain")
    marking = compiled(here / "marking.rs", scratch / "marking")
    generator = compiled(here.parents[1] / "end_to_end" / "plain" / "main.rs", scratch / "generator")
    subprocess.run([plain, "generate"], cwd=folder, check=True)
    for name, words in HEAPS.items():
        command = [generator, "generate", name, "--mib", "32", "--live", "50", "--log", "9", "--version", "2", *words]
        subprocess.run(command, cwd=folder, check=True, stdout=subprocess.DEVNULL)
    return proved(scratch, here / "codec.rt.txt", "heap_image"), [[plain], [marking, *HEAPS]]


def run(commands: list[list], folder: pathlib.Path) -> dict[str, tuple[int, str]]:
    """Of each call the nanoseconds that it took, and what it made of the image."""
    (folder / "written").unlink(missing_ok=True)
    lines = []
    for command in commands:
        done = subprocess.run(command, cwd=folder, check=True, capture_output=True, text=True)
        lines += done.stdout.splitlines()
    answers = {name: (int(nanoseconds), seen) for name, nanoseconds, seen in map(str.split, lines)}
    same = (folder / "written").read_bytes() == (folder / "image").read_bytes()
    return answers | {"write_image": (answers["write_image"][0], str(same))}


parser = argparse.ArgumentParser(description=__doc__, formatter_class=argparse.RawDescriptionHelpFormatter)
parser.add_argument("--rounds", type=int, default=15, help="how often each program runs (15)")
parser.add_argument("--scratch", type=pathlib.Path, help="where to build (a folder among the temporary files)",
                    default=pathlib.Path(tempfile.gettempdir()) / "heap_image-bench")
asked = parser.parse_args()

codec, plain = build(asked.scratch.resolve())
rounds = [(run([[codec]], codec.parent.parent), run(plain, codec.parent.parent)) for _ in range(asked.rounds)]


def median(answers: list[tuple[int, str]]) -> float:
    return statistics.median(nanoseconds for nanoseconds, _ in answers) / 1e6


fine = True
copy = median([theirs["copy"] for _, theirs in rounds])
print(f"one copy of the words {copy:.1f} ms")
for call, goal in GOALS.items():
    answers = [ours[call] for ours, _ in rounds], [theirs[call.removesuffix("_by_many")] for _, theirs in rounds]
    ours, theirs = map(median, answers)
    same = len({seen for _, seen in itertools.chain(*answers)}) == 1
    fine = fine and same and ours / theirs <= goal
    name = call if call in CALLS else f"mark_from_roots, {call}"
    print(f"{name} {ours:.1f} ms, plain Rust {theirs:.1f} ms: {ours / theirs:.2f}, goal {goal}; "
          f"{ours / copy:.1f} copies" + ("" if same else ", but the two differ"))
sys.exit(0 if fine else 1)
