#!/usr/bin/env python3
"""Imports a large heap dump, collects the image, and compares what is left with the graph of the dump, which a plain reader walks.

The dump is written for this, from a seed. `import` makes an image of version 3 in memory of at most 3 times the image, and tells
how many objects, roots and live objects there are. `collect` by 1, 2 and 4 workers writes the same bytes, which `verify` finds
right. In them live just the objects that the reader meets from the roots on, with the dump's sizes, references and data, side by
side in the order of their ids; and `import --live-only` makes the same words without a collection. Then `import --atomic` is
killed, meets a full disk, and gets little memory, and the old file or the whole new one is there. Ends with status 1 where
something is another way.

usage: tests/large/test_large_dumps.py [PROGRAM] [--mib N] [--seed N] [--longest N]

A dump of N MiB (256) takes about 5 N of disk and 3 N of memory. Most arrays are cut to `--longest` elements (500). Objects then
have 320 bytes on average; with 16 they have 67, and there are so many more that the reader needs most of the time and memory.
"""
import argparse
import math
import pathlib
import random
import re
import sys
import tempfile
import time

# Finds the package `tests` from any folder, and writes nothing beside its modules.
sys.dont_write_bytecode = True
sys.path.insert(0, str(pathlib.Path(__file__).resolve().parents[2]))
from tests.large.dump_graph import DumpGraph, LargeImage, Walk
from tests.large.large_calls import BESIDE, MIB, Call, LargeCalls, fitting_mib
from tests.large.large_dump import LargeDump
from tests.support.measured import Taken
from tests.support.program import Tried, built

IMPORT = "import dump out --region-log 12 --version 3"
FIGURES = re.compile(r"words (\d+) objects (\d+) roots (\d+) live (\d+) dead (\d+) dropped-gaps \d+ unresolved \d+\n")
# How much disk it takes in dumps, with what other tests take meanwhile.
DISK_TIMES = 10
# The most memory of a call in images, beside a fixed part.
COLLECT, VERIFY = 1.5, 3


class Imported:
    """A dump, its image, and what commands print about them."""

    def __init__(self, calls: LargeCalls, dump: LargeDump):
        self.calls = calls
        begun = time.monotonic()
        dump.write(calls.here / "dump")
        seconds = time.monotonic() - begun
        self.dump_mib = calls.size("dump") / MIB
        print(f"a dump of {self.dump_mib:.0f} MiB, written with {self.dump_mib / seconds:.0f} MiB a second", flush=True)
        self.figures = ""
        self.taken: Taken | None = None
        self.top = 0

    def try_import(self) -> None:
        calls = self.calls
        # Nobody knows how large the image is before it is there.
        self.figures = calls.run(IMPORT.replace(" out", " image"), math.inf)
        size, self.taken = calls.size("image"), calls.last
        print(f"import: {self.dump_mib / self.taken.seconds:.0f} MiB a second, memory of {self.taken.memory / size:.2f} images")
        calls.expect(self.taken.memory <= 3 * size, f"import took {self.taken.memory} bytes of memory for an image of {size}")
        calls.expect(calls.read_start("image") == b"PCHEAP03", "import made no image of version 3")

    def try_collections(self) -> None:
        """By each number of workers the same file, `right`."""
        calls, size = self.calls, self.calls.size("image")
        told = set()
        for workers in (1, 2, 4):
            out = "right" if workers == 1 else "out"
            told.add(calls.run(f"collect image {out} --workers {workers}", COLLECT * size + BESIDE))
            calls.expect(calls.are_same(out, "right"), f"{workers} workers write other bytes than one")
        calls.expect(len(told) == 1, f"several numbers of workers tell {sorted(told)}")
        self.top = int(re.match(r"prefix \d+ top (\d+) ", told.pop())[1])
        calls.expect(calls.run("verify image right", VERIFY * size + BESIDE) == "same\n", "verify finds a difference")

    def try_live_only(self) -> None:
        """The live objects alone are what a collection leaves up to the top."""
        calls = self.calls
        calls.run(f"{IMPORT} --live-only", 3 * max(calls.size("image"), calls.size("dump")))
        alone, collected = LargeImage(calls.here / "out"), LargeImage(calls.here / "right")
        calls.expect(alone.words[:self.top] == collected.words[:self.top], "--live-only makes other words than a collection")
        calls.expect(alone.roots == collected.roots, "--live-only makes other roots than a collection")

    def try_graph(self) -> None:
        calls = self.calls
        graph = DumpGraph(calls.here / "dump")
        walk = Walk(graph, LargeImage(calls.here / "right"))
        wrong = walk.difference(self.top)
        calls.expect(not wrong, f"the collected image has another graph than the dump: {wrong}")
        objects, live = len(graph.places), len(walk.order)
        print(f"{live} of {objects} objects are met from {len(graph.roots)} roots")
        found = FIGURES.fullmatch(self.figures)
        told = [int(number) for number in found.groups()[1:]] if found else None
        calls.expect(told == [objects, len(graph.roots), live, objects - live], f"import tells {self.figures!r}")


def main() -> int:
    words = argparse.ArgumentParser(description=__doc__, formatter_class=argparse.RawDescriptionHelpFormatter)
    words.add_argument("program", nargs="?", type=pathlib.Path)
    words.add_argument("--mib", type=int, default=256)
    words.add_argument("--seed", type=int, default=1)
    words.add_argument("--longest", type=int, default=500)
    given = words.parse_args()
    with tempfile.TemporaryDirectory() as folder:
        calls = LargeCalls(Tried(given.program or built(), pathlib.Path(folder)))
        imported = Imported(calls, LargeDump(fitting_mib(given.mib, DISK_TIMES) * MIB, given.seed, given.longest))
        imported.try_import()
        imported.try_collections()
        imported.try_live_only()
        imported.try_graph()
        calls.try_troubles(Call(IMPORT, "image", imported.taken), random.Random(given.seed))
        return calls.told()


if __name__ == "__main__":
    sys.exit(main())
