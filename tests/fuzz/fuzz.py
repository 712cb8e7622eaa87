#!/usr/bin/env python3
"""Seeded heaps of all versions and schedules through each command of the built program, beside a slow plain model of
the pages, in tests/models: image.py for images, schedule.py for schedules, heap_text.py for heaps as texts.

Each case is an image, valid or slightly wrong: a header, a reference, a live address or a root is another one, roots
stand for live addresses, an object lies in another one, the text is cut or goes on, or its head tells something else,
at a limit or not. `summary`, `collect`, `record`, `replay`, `verify` and `upgrade` must answer what the model says of
the same bytes, and write the same files, with and without `--atomic`. A valid image is also given to `verify` beside a
changed compaction, and to `replay` with schedules: those of workers that take their steps in any order, and the same
with lines exchanged, left out or doubled, other numbers, replies, spaces and workers. And it is printed by `text`, which
`assemble` must make the same image of; that text is then changed, and `assemble` must take it just where the model does.
One case in 200 is at a limit of regions or words.

Beside that a heap dump, drawn and mostly changed, is imported as tests/models/dump.py does, and some commands run on the case's
files under limits of memory, stack, files and descriptors: they answer as without, or by fault 11 or 13.

A case depends on the seed and its number alone, but for what `record` writes with several workers. Cases run by several
processes. Ends with status 1 where something differs, a signal ends the program, or a call takes more than 10 seconds; all
files of such a case are then kept, with what was told.

usage: tests/fuzz/fuzz.py [PROGRAM [SEED [COUNT]]] [--case NUMBER] [--seconds SECONDS] [--keep FOLDER] [--processes N]
"""
import argparse
import collections
import dataclasses
import functools
import math
import multiprocessing
import os
import pathlib
import random
import shutil
import sys
import tempfile
import time
import traceback

# Finds the package `tests` from any folder, and writes nothing beside its modules.
sys.dont_write_bytecode = True
sys.path.insert(0, str(pathlib.Path(__file__).resolve().parents[2]))
from tests.fuzz.fuzz_cases import try_case
from tests.fuzz.fuzz_dumps import try_dump
from tests.fuzz.fuzz_limits import SECONDS, Limited
from tests.support import program
from tests.support.cases import BASE
from tests.support.program import Tried, built

LONGEST_TEXT = 2_000
# How long cases begin where neither their number nor a time is given.
USUAL_SECONDS = 30
LIMITED_CALLS = 3


@dataclasses.dataclass
class Share:
    """What one process has done."""
    done: int = 0
    calls: int = 0
    kinds: collections.Counter = dataclasses.field(default_factory=collections.Counter)
    different: list[int] = dataclasses.field(default_factory=list)

    def add(self, other: "Share") -> None:
        self.done += other.done
        self.calls += other.calls
        self.kinds += other.kinds
        self.different += other.different


class Fuzzer:
    """Runs cases in a folder of its own, and keeps the files of those that differ."""

    def __init__(self, asked: argparse.Namespace, folder: pathlib.Path):
        self.asked = asked
        self.folder = folder
        self.told = []
        self.tried = Tried(asked.program or built(), folder, self.told.append)
        self.limited = Limited(self.tried)
        self.share = Share()

    def try_number(self, number: int) -> None:
        """Runs the case of this number."""
        tried = self.tried
        for file in self.folder.iterdir():
            if file != tried.program:
                file.unlink()
        self.told.clear()
        tried.write("base", BASE)
        try:
            self.share.kinds.update(try_case(tried, random.Random(f"{self.asked.seed} {number}")))
            chance = random.Random(f"{self.asked.seed} {number} besides")
            self.share.kinds[try_dump(tried, chance)] += 1
            self.share.kinds.update(self.limited.try_call(chance) for _ in range(LIMITED_CALLS))
            for file in self.folder.glob(".pcompact-*"):
                tried.is_wrong(f"{file.name} is left behind")
        except Exception:
            tried.is_wrong(traceback.format_exc())
        self.share.done += 1
        self.share.different += [number] if self.told else []
        if self.told or self.asked.case:
            self.keep(number)

    def keep(self, number: int) -> None:
        kept = self.asked.keep / f"case-{self.asked.seed}-{number}"
        self.tried.write("told", "".join(f"{what}\n" for what in self.told))
        shutil.rmtree(kept, ignore_errors=True)
        shutil.copytree(self.folder, kept, ignore=shutil.ignore_patterns("pcompact"))
        what = "".join(f"\n  {text[:LONGEST_TEXT]}" for text in self.told)
        found = "differs" if self.told else "is right"
        print(f"case {number} of seed {self.asked.seed} {found}; its files are in {kept}{what}", flush=True)


def try_share(asked: argparse.Namespace, until: float, numbers: range) -> Share:
    """Runs the cases of these numbers, as far as time allows."""
    program.SECONDS = SECONDS
    with tempfile.TemporaryDirectory() as folder:
        fuzzer = Fuzzer(asked, pathlib.Path(folder))
        for number in numbers:
            if time.monotonic() > until:
                break
            fuzzer.try_number(number)
        fuzzer.share.calls = fuzzer.tried.count
        return fuzzer.share


def asked_for() -> argparse.Namespace:
    parser = argparse.ArgumentParser(description=__doc__.partition("\nusage:")[0],
                                     formatter_class=argparse.RawDescriptionHelpFormatter)
    parser.add_argument("program", nargs="?", type=pathlib.Path, help="the program (the one that fits the sources)")
    parser.add_argument("seed", nargs="?", default="1", help="any text (1)")
    parser.add_argument("count", nargs="?", type=int, help="how many cases (as many as time allows)")
    parser.add_argument("--case", type=int, help="only the case of this number, from 1; its files are kept")
    parser.add_argument("--seconds", type=float, help="no case begins later than this (30, or any time for a count of cases)")
    parser.add_argument("--keep", type=pathlib.Path, default=pathlib.Path(tempfile.gettempdir()),
                        help="where the files of cases that differ are kept (the temporary files)")
    parser.add_argument("--processes", type=int, default=os.cpu_count(), help="how many (one a processor)")
    return parser.parse_args()


def main() -> int:
    asked = asked_for()
    start = time.monotonic()
    seconds = asked.seconds or (math.inf if asked.count or asked.case else USUAL_SECONDS)
    numbers = range(asked.case, asked.case + 1) if asked.case else range(1, (asked.count or sys.maxsize - 1) + 1)
    shares = [numbers[i::asked.processes] for i in range(asked.processes)]
    total = Share()
    with multiprocessing.Pool(asked.processes) as pool:
        for share in pool.imap_unordered(functools.partial(try_share, asked, start + seconds), shares):
            total.add(share)
    seconds = time.monotonic() - start
    print(", ".join(f"{kind}: {count}" for kind, count in sorted(total.kinds.items())))
    print(f"{total.done} cases of seed {asked.seed} in {seconds:.0f} s, {total.calls} calls")
    print(f"{total.done - len(total.different)} passed, {len(total.different)} failed")
    return 1 if total.different else 0


if __name__ == "__main__":
    sys.exit(main())
