#!/usr/bin/env python3
"""Runs `compare` over pairs of heap dumps: what it prints is what a plain model says, and each planted bug is named.

usage: tests/cli/test_compare.py [PROGRAM]
"""
import pathlib
import random
import subprocess
import sys

# Finds the package `tests` from any folder, and writes nothing beside its modules.
sys.dont_write_bytecode = True
sys.path.insert(0, str(pathlib.Path(__file__).resolve().parents[2]))
from tests.models.pairs import Comparison
from tests.support import collected_dumps, dump_writer
from tests.support.cases import try_groups
from tests.support.program import TOP, Answer, Tried, fault

KEPT = sorted((TOP / "examples" / "dumps").glob("*.hprof"))
SEEDS = range(4)
SAME = Answer(2, err="pcompact: same file\n")
IRREGULAR = Answer(2, err="pcompact: not a regular file\n")


def try_pair(tried: Tried, before: bytes, after: bytes) -> Comparison:
    """Each form of the report of two dumps."""
    tried.write("before", before)
    tried.write("after", after)
    wanted = Comparison(before, after)
    tried.run("compare before after", Answer(wanted.status(), wanted.text()))
    tried.run("compare before after --explain --verbose", Answer(wanted.status(), wanted.text(explain=True)))
    tried.run("compare --json before after", Answer(wanted.status(), wanted.as_json()))
    return wanted


def try_kept(tried: Tried) -> None:
    """Each kept dump beside itself, and beside another machine's."""
    for kept in KEPT:
        data = kept.read_bytes()
        if try_pair(tried, data, data).verdict() != "slid":
            tried.is_wrong(f"{kept.name} isn't what it is itself")
    for one, other in zip(KEPT, KEPT[1:]):
        try_pair(tried, one.read_bytes(), other.read_bytes())


def try_slides(tried: Tried) -> None:
    """Heaps that a collection slid, with a prefix and fillers, and the same dumps the other way round."""
    for seed in range(20):
        heap = collected_dumps.drawn(seed)
        before, after = collected_dumps.dump(heap, heap.before), collected_dumps.dump(heap, heap.after, heap.fillers)
        wanted = try_pair(tried, before, after)
        if wanted.verdict() != "slid" or not wanted.figures(*wanted.spaces[1])["prefix"]:
            tried.is_wrong(f"seed {seed}: {wanted.text()}")
        try_pair(tried, after, before)


def try_bugs(tried: Tried) -> None:
    """Twenty bugs of a collector, each of which is named with its object."""
    for seed in SEEDS:
        heap = collected_dumps.drawn(seed)
        before = collected_dumps.dump(heap, heap.before)
        for bug in collected_dumps.BUGS:
            after, address = collected_dumps.with_bug(heap, bug, random.Random(seed))
            wanted = try_pair(tried, before, after)
            said = subprocess.run([tried.program, "compare", "before", "after", "--explain"], cwd=tried.folder, capture_output=True, text=True)
            tried.count += 1
            if f"@{address:x} " not in said.stdout.partition(":")[2] or (bug in ("swapped", "moved up", "hole") and said.returncode != 1):
                tried.is_wrong(f"seed {seed}, {bug}, @{address:x}: {said} beside {wanted.text(explain=True)}")


def try_drawn(tried: Tried) -> None:
    """Dumps that nothing relates."""
    for seed in range(30):
        try_pair(tried, dump_writer.drawn(seed), dump_writer.drawn(seed + 1))


def try_streams(tried: Tried) -> None:
    """A dump from a pipe."""
    heap = collected_dumps.drawn(7)
    before, after = collected_dumps.dump(heap, heap.before), collected_dumps.dump(heap, heap.after, heap.fillers)
    tried.write("before", before)
    tried.write("after", after)
    wanted = Answer(0, Comparison(before, after).text())
    tried.run("compare - after", wanted, input=before)
    tried.run("compare before -", wanted, input=after)
    tried.run("compare - -", SAME)


def try_refused(tried: Tried) -> None:
    """What is no dump, or can't be read."""
    good = dump_writer.small().text()
    tried.write("good", good)
    for data, said in ((b"", "byte 0: the dump ends here, inside a record"), (b"x" * 40, "byte 0: this is no heap dump of version 1.0.1 or 1.0.2"),
                       (good[:-1], f"byte {len(good) - 1}: the dump ends here, inside a record")):
        tried.write("bad", data)
        for words in ("compare bad good", "compare good bad", "compare bad bad --json"):
            tried.run(words, Answer(1, err=f"pcompact: {said}\n"))
    for words in ("compare nothing good", "compare good nothing"):
        tried.run(words, fault("13 input or output"))
    (tried.folder / "folder").mkdir()
    for words in ("compare folder good", "compare good folder"):
        tried.run(words, IRREGULAR)


GROUPS = (try_kept, try_slides, try_bugs, try_drawn, try_streams, try_refused)

if __name__ == "__main__":
    sys.exit(try_groups(GROUPS))
