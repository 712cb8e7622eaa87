#!/usr/bin/env python3
"""Runs the commands of the built program on a large heap of version 3, generated from a seed, half live.

`collect` by 1, 2 and 4 workers writes the same bytes, which `verify` finds right. `summary`, `order` and `map` tell of as many
live words, and of the same prefix and top. `record` writes these bytes too, and `replay` and `timeline` follow its schedule to the
end. All of this also with as many regions as version 3 allows. Drawings have less than 300,000 bytes. `text` through a pipe into
`assemble` gives the heap again. No call takes more memory than MOST says. Then `collect --atomic` is killed, meets a full disk,
and gets little memory, and the old file or the whole new one is there. Ends with status 1 where something is another way.

usage: tests/large/test_large_heaps.py [PROGRAM] [--mib N] [--seed N]

A heap of N MiB (256) takes about 3 N of disk and 10 N of memory. What may have no room in memory is left out, and counted.
"""
import argparse
import math
import os
import pathlib
import random
import re
import sys
import tempfile
import threading

# Finds the package `tests` from any folder, and writes nothing beside its modules.
sys.dont_write_bytecode = True
sys.path.insert(0, str(pathlib.Path(__file__).resolve().parents[2]))
from tests.large.large_calls import BESIDE, MIB, Call, LargeCalls, fitting_mib
from tests.support.program import Tried, built

MAX_REGIONS_LOG = 20
# How much disk it takes in heaps, with what other tests take meanwhile.
DISK_TIMES = 10
USUAL_LOG = 12
LARGEST_DRAWING = 300_000
# The most memory of each command in images, besides a fixed part and these bytes for a region.
REGION = 400
MOST = {"generate": 1.5, "collect": 1.5, "record": 1.5, "verify": 2.5, "summary": 1.5, "order": 1.5, "map": 1.5, "replay": 5,
        "timeline": 5, "text": 4, "assemble": 7}


class Heap:
    """A generated heap, in regions of one size."""

    def __init__(self, calls: LargeCalls, mib: int, region_log: int, seed: int):
        self.calls = calls
        self.words = mib * MIB // 8
        self.regions = self.words >> region_log
        self.size = 8 * self.words
        told = self.run(f"generate heap --words {self.words} --live 50 --region-log {region_log} --seed {seed} --version 3")
        self.live = int(re.fullmatch(rf"words {self.words} objects \d+ roots \d+ live (\d+)\n", told)[1])
        self.size = calls.size("heap")
        self.collected = ""

    def run(self, words: str, said: str = "said") -> str:
        return self.calls.run(words, self.most(words.split()[0]), said)

    def most(self, command: str) -> float:
        return MOST[command] * self.size + REGION * self.regions + BESIDE

    def expect(self, is_right: bool, what: str) -> None:
        self.calls.expect(is_right, f"{what}, {self.regions} regions")

    def try_collections(self) -> None:
        for workers in (1, 2, 4):
            out = "right" if workers == 1 else "out"
            told = self.run(f"collect heap {out} --workers {workers}")
            self.collected = self.collected or told
            self.expect(told == self.collected and self.calls.are_same(out, "right"), f"{workers} workers differ from one")
        top = self.words // 2
        self.expect(f" top {top} " in self.collected, f"collect tells {self.collected!r}, where {top} words live")
        self.expect(self.run("verify heap right") == "same\n", "verify finds a difference")

    def try_looks(self) -> None:
        """What commands print about the heap alone."""
        prefix_and_top = self.collected.rpartition(" filled")[0]
        lines = self.run("summary heap").splitlines()
        live = sum(int(partial) + int(begun) for _, partial, begun, *_ in map(str.split, lines[1:]))
        self.expect((lines[0], len(lines), live) == (prefix_and_top, self.regions + 1, self.words // 2), f"summary tells {lines[0]!r}")
        chain = self.run("order heap")
        form = rf"chain \d+ words {self.words // 2} speedup \d+\.\d\d workers \d+\n"
        self.expect(bool(re.fullmatch(form, chain)), f"order tells {chain!r}")
        line = f"words {self.words} live {self.words // 2} dead {self.words - self.words // 2} {self.collected}"
        self.expect(self.run("map heap --after").startswith(line), "map tells another line")
        self.expect(self.run("map heap --after --svg drawing") == line, "map --svg tells another line")
        self.expect(0 < self.calls.size("drawing") < LARGEST_DRAWING, f"a map has {self.calls.size('drawing')} bytes")

    def try_schedule(self) -> None:
        self.expect(self.run("record heap out schedule --workers 4") == self.collected, "record tells another line")
        self.expect(self.calls.are_same("out", "right"), "record writes other bytes than collect")
        print(f"a schedule of {self.calls.size('schedule') / MIB:.1f} MiB")
        if not self.calls.has_room(self.most("replay"), "replay, like timeline,"):
            return
        self.run("replay heap schedule")
        replayed = (self.calls.here / "said").read_bytes()
        self.expect(replayed == self.calls.tried.read("schedule") + b"finished\n", "replay tells other replies")
        for flag in ("", " --svg drawing", " --html drawing"):
            figures = self.run(f"timeline heap schedule{flag}").splitlines()[0]
            self.expect(bool(re.fullmatch(r"workers 4 lines \d+ .* finished", figures)), f"timeline{flag} tells {figures!r}")
            most = {"": math.inf, " --svg drawing": LARGEST_DRAWING, " --html drawing": 2 * len(replayed) + MIB}[flag]
            self.expect(not flag or 0 < self.calls.size("drawing") < most, f"timeline{flag}: {self.calls.size('drawing')} bytes")

    def try_text(self) -> None:
        """The text through a pipe, and the image of it."""
        if not self.calls.has_room(self.most("text") + self.most("assemble"), "text, with assemble,"):
            return
        os.mkfifo(self.calls.here / "lines")
        writer = threading.Thread(target=self.run, args=("text heap", "lines"))
        writer.start()
        told = self.run("assemble lines again")
        writer.join()
        self.expect(bool(re.fullmatch(rf"words {self.words} roots \d+ live {self.live}\n", told)), f"assemble tells {told!r}")
        self.expect(self.calls.are_same("again", "heap"), "the text of the heap gives another one")
        (self.calls.here / "again").unlink()


def least_log(mib: int) -> int:
    """The region log that gives a heap of this number of MiB the most regions."""
    return max(3, (mib * MIB // 8 - 1).bit_length() - MAX_REGIONS_LOG)


def main() -> int:
    words = argparse.ArgumentParser(description=__doc__, formatter_class=argparse.RawDescriptionHelpFormatter)
    words.add_argument("program", nargs="?", type=pathlib.Path)
    words.add_argument("--mib", type=int, default=256)
    words.add_argument("--seed", type=int, default=1)
    given = words.parse_args()
    with tempfile.TemporaryDirectory() as folder:
        calls = LargeCalls(Tried(given.program or built(), pathlib.Path(folder)))
        mib = fitting_mib(given.mib, DISK_TIMES)
        many = Heap(calls, mib, least_log(mib), given.seed)
        many.try_collections()
        many.try_looks()
        many.try_schedule()
        usual = Heap(calls, mib, USUAL_LOG, given.seed)
        usual.try_collections()
        usual.try_looks()
        usual.try_schedule()
        usual.try_text()
        usual.run("collect heap out --workers 2")
        calls.try_troubles(Call("collect heap out --workers 2", "right", calls.last), random.Random(given.seed))
        return calls.told()


if __name__ == "__main__":
    sys.exit(main())
