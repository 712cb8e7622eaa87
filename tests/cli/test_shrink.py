#!/usr/bin/env python3
"""Runs `reduce` beside a slow plain model of its steps, and `shrink` with a collector that has one of twelve bugs.

usage: tests/cli/test_shrink.py [PROGRAM]
"""
import os
import pathlib
import random
import re
import signal
import subprocess
import sys
import time

# Finds the package `tests` from any folder, and writes nothing beside its modules.
sys.dont_write_bytecode = True
sys.path.insert(0, str(pathlib.Path(__file__).resolve().parents[2]))
from tests.models.generated_heap import Wanted, generated
from tests.models.image import Collection, Image, decode, encode, header
from tests.models.reduction import is_smaller, is_valid, next_smaller, reduced
from tests.support.cases import BASE, try_groups
from tests.support.program import TOP, Answer, Tried, fault, usage
from tests.support.shrunk_bugs import BUGS, collected

SHRINK = TOP / "share" / "shrink"
BUGGY = [sys.executable, str(TOP / "tests" / "support" / "shrunk_bugs.py")]
# A heap that each of the bugs shows in.
LARGE = generated(Wanted(1024, 3, 50, 25, 2, 12, 3))[0]
# The words of a least heap, and how many of the bugs have one.
LEAST, MOST_BUGS = 40, 10
SECONDS = 60
PAST_ALL = 2 ** 64 - 1
HEAPS = [
    decode(BASE), Image(2, 3, 0, decode(BASE).words, [21, 0]), Image(3, 4, 7, decode(BASE).words, [21, 21]),
    Image(2, 3, 5, [0] * 8, []), Image(1, 4, 0, [header(3, 2), 1, 0, *[5] * 13], [0]), Image(2, 3, 0, [header(2, 1), 1, *[9] * 6], [1]),
    *(generated(Wanted(*row))[0] for row in [(32, 3, 60, 50, 2, 5, 35), (32, 3, 60, 50, 1, 5, 36), (64, 4, 50, 40, 3, 9, 37)]),
]


def try_steps(tried: Tried) -> None:
    """Each step of small heaps, as the model makes it, until none is left."""
    for heap in HEAPS:
        tried.write("heap", encode(heap))
        start, line = 0, ""
        while not line.startswith("least"):
            line, small = reduced(heap, start)
            tried.run(f"reduce heap out --step {start}", Answer(0, line, made={"out": encode(small)}))
            start = 0 if line.startswith("least") else int(line.split()[1]) + 1
        tried.run(f"reduce heap out --step {PAST_ALL}", Answer(0, line, made={"out": encode(heap)}))
        tried.run("reduce heap out", Answer(0, reduced(heap, 0)[0], made={"out": encode(reduced(heap, 0)[1])}))


def try_chains(tried: Tried) -> None:
    """Heaps made smaller by steps at random, each of the one before: all are valid and smaller, and the model's."""
    for seed in range(6):
        chosen = random.Random(seed)
        heap = generated(Wanted(256, 3 + seed % 3, 40 + seed, 40, 1 + seed % 3, 3 * seed, seed))[0]
        while found := next_smaller(heap, chosen.randrange(200)):
            step, small = found
            tried.write("heap", encode(heap))
            tried.run(f"reduce heap out --step {step}", Answer(0, reduced(heap, step)[0], made={"out": encode(small)}))
            if not (is_valid(small) and is_smaller(small, heap)):
                tried.is_wrong(f"step {step} of seed {seed} makes no smaller heap")
            heap = small


def try_words(tried: Tried) -> None:
    """Words that `reduce` refuses, and files that fail."""
    tried.write("heap", BASE)
    tried.run("reduce heap heap", Answer(2, err="pcompact: same file\n"))
    tried.run("reduce heap", usage("error: the following required arguments were not provided:\n  <OUT>\n"))
    tried.run("reduce heap out --step x", usage("error: invalid value 'x' for '--step <n>': "))
    tried.run("reduce nothing out", fault("13 input or output", {"out": None}))
    tried.run("reduce heap nothing/out", fault("13 input or output"))
    tried.write("wrong", BASE[:100])
    tried.run("reduce wrong out", fault("5 truncated body", {"out": None}))
    tried.run("reduce heap heap --atomic --step 0", Answer(0, reduced(decode(BASE), 0)[0], made={}))
    tried.write("heap", BASE)


def shrunk(tried: Tried, words: list[str], **how) -> subprocess.CompletedProcess:
    return subprocess.run([SHRINK, tried.program, *words], cwd=tried.folder, capture_output=True, text=True, **how)


def try_bugs(tried: Tried) -> None:
    """The least heap for each bug: valid, wrong still, and small for most."""
    small = 0
    for bug in BUGS:
        tried.count += 1
        tried.write("before", encode(LARGE))
        begun = time.monotonic()
        done = shrunk(tried, ["before", "least", "--seconds", str(SECONDS), "--", *BUGGY, bug])
        took = time.monotonic() - begun
        if done.returncode or took > SECONDS + 10:
            tried.is_wrong(f"shrink of {bug} ends with {done.returncode} after {took:.0f} s: {done.stderr}")
            continue
        least = decode(tried.read("least"))
        small += len(least.words) <= LEAST
        if collected(least, bug) == Collection(least).compaction():
            tried.is_wrong(f"the heap that is left for {bug} is collected rightly")
        if not re.fullmatch(rf"words {len(least.words)} live \d+ roots \d+ .* tries \d+ seconds \d+\n", done.stdout):
            tried.is_wrong(f"shrink of {bug} prints {done.stdout!r}")
    if small < MOST_BUGS:
        tried.is_wrong(f"{small} of {len(BUGS)} bugs have a heap of at most {LEAST} words")


def try_ends(tried: Tried) -> None:
    """A right collector, one that fails, wrong words, files that aren't there, and limits."""
    tried.write("before", BASE)
    right = [str(tried.program), "collect", "--workers", "1"]
    rows = [
        (["before", "least", "--", *right], 1, "pcompact: the command collects BEFORE rightly\n"),
        (["before", "least", "--", "false"], 3, "pcompact: the command fails on BEFORE\n"),
        (["before", "least", "--", "true"], 3, "pcompact: the command fails on BEFORE\n"),
        (["before", "least", "--", "./nothing"], 3, "pcompact: the command fails on BEFORE\n"),
        (["nothing", "least", "--", "cp"], 3, "pcompact: fault 13 input or output\n"),
        (["before", "nothing/least", "--", "cp"], 3, "pcompact: fault 13 input or output\n"),
        (["before", "before", "--", "cp"], 2, "error: BEFORE and OUT are the same file\n"),
        (["before", "least", "--"], 2, "error: BEFORE, OUT and, after --, COMMAND are required\n"),
        (["before", "least", "cp"], 2, "error: unexpected argument 'cp' found"),
        (["before", "least", "--tries", "x", "--", "cp"], 2, "error: invalid value 'x' for '--tries <n>'"),
        (["before", "least", "--tries"], 2, "error: a value is required for '--tries <n>'"),
        (["before", "least", "--often", "--", "cp"], 2, "error: unexpected argument '--often' found"),
    ]
    for words, status, said in rows:
        tried.count += 1
        (tried.folder / "least").unlink(missing_ok=True)
        done = shrunk(tried, words)
        if (done.returncode, done.stdout) != (status, "") or not done.stderr.startswith(said) or (tried.folder / "least").exists():
            tried.is_wrong(f"shrink {' '.join(words)} ends with {done.returncode}: {done.stderr!r}")
    tried.count += 1
    done = shrunk(tried, ["before", "least", "--tries", "3", "--progress", "--", "cp"])
    if done.returncode or " tries 3 " not in done.stdout or "tries " not in done.stderr:
        tried.is_wrong(f"shrink by three tries ends with {done.returncode}: {done.stdout!r} {done.stderr!r}")


def try_signals(tried: Tried) -> None:
    """Ctrl-C in the middle: the least heap stays, and nothing else."""
    tried.write("before", encode(LARGE))
    room = tried.folder / "room"
    room.mkdir()
    words = [SHRINK, tried.program, "before", "least", "--", *BUGGY, "stale"]
    for name in (signal.SIGINT, signal.SIGTERM):
        tried.count += 1
        (tried.folder / "least").unlink(missing_ok=True)
        search = subprocess.Popen(words, cwd=tried.folder, stdout=subprocess.DEVNULL, env={**os.environ, "TMPDIR": str(room)})
        while search.poll() is None and not (tried.folder / "least").exists():
            time.sleep(0.05)
        time.sleep(1)
        search.send_signal(name)
        search.wait(SECONDS)
        left = [file.name for file in room.iterdir()]
        least = decode(tried.read("least"))
        if search.returncode not in (-name, 0) or left or collected(least, "stale") == Collection(least).compaction():
            tried.is_wrong(f"signal {name} leaves {left}, status {search.returncode}")


GROUPS = (try_steps, try_chains, try_words, try_ends, try_bugs, try_signals)

if __name__ == "__main__":
    sys.exit(try_groups(GROUPS))
