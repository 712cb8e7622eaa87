#!/usr/bin/env python3
"""How long collections take through the library for C, beside the same inside `pcompact`, and beside the plain program.

Builds `calls.c` (by the C compiler) over the library that fits the sources, `inside.rt.txt` (proved, by `rt`, with the crates
below it) and the plain Rust program of `bench/end_to_end/plain` (by `rustc`) in the scratch folder. That generates heaps of 32
MiB, half live, with region logs 9 and 16, with a live list and with roots. Then all programs run in turn, each round in
processes of their own. For each heap it prints the least times of

- one call in place, `pcompact_collect_in_place` or `_rooted`, which checks the words and collects them where they lie;
- one call that is lent their regions, `pcompact_collect_lent` or `_rooted`, which the call in place makes;
- one call that copies the words in, checks and collects them, and copies them back, `pcompact_collect` or `_rooted`;
- decoding the heap's bytes in memory, which copies and checks them too, and its collection, by one worker inside `pcompact`;
  and the collection alone;
- the phases of the plain program, all but reading and writing files.

Then the same by four threads of a C program, each with a handle, which share the work between begin and end, and in place also
the check before: beside one call, and beside four workers inside `pcompact`; the calls on a heap of 64 words; and the size of
the library without symbols. The lines say which goals are kept. Ends with status 1 where one is missed, or where two programs
left different images. A second run with the same scratch folder builds only what has changed.

All processes get huge pages from the C library as the script `pcompact` asks for them, unless the environment sets
GLIBC_TUNABLES: empty, it shows what a host feels that asks for none.
"""
import argparse
import dataclasses
import filecmp
import os
import pathlib
import shutil
import statistics
import subprocess
import sys
import tempfile

here = pathlib.Path(__file__).resolve().parent
sys.dont_write_bytecode = True
sys.path[:0] = [str(here.parents[1]), str(here.parents[2])]
from building import TUNABLES, plain_program, proved
from tests.support.library import built_library, compiler

# The most that a call may take, to the same inside pcompact and to the plain program; that four threads may, to four workers.
TO_INSIDE, TO_PLAIN, BY_FOUR = 1.1, 1.2, 1.1
# The most microseconds of a call on a heap of 64 words, and how often it is made.
SMALL_TIME, SMALL_CALLS = 10, 20_000
# The most bytes of the library.
LIBRARY_SIZE = 1_000_000
KINDS = {1: "live list", 2: "roots"}
# The ways of `calls.c`, and what they are called here.
WAYS = {"place": "in place", "lent": "lent", "copy": "by copy"}
# Those that threads have, and the one call beside which each is shown.
BY_THREADS = {**{way: (words, way) for way, words in WAYS.items()}, "check": ("in place, the check too", "place")}
THREADS = 4
# The phases of a collection by threads. All of them share the second, and one has the others.
PHASES = ("begin", "work", "end")
# How often a process collects a fresh copy of the heap.
COPIES = 3


@dataclasses.dataclass(frozen=True)
class Heap:
    log: int
    version: int

    def __str__(self) -> str:
        return f"region log {self.log}, {KINDS[self.version]}"


class Programs:
    """What is measured, in the scratch folder."""

    def __init__(self, scratch: pathlib.Path):
        self.scratch = scratch
        self.plain = plain_program(scratch)
        self.make(Heap(9, 1))
        self.inside = proved(scratch, here / "inside.rt.txt", "collector", may_wait=3)
        self.library, why = built_library()
        if not self.library or not compiler():
            sys.exit(why or "there is no C compiler")
        self.has_processors = len(os.sched_getaffinity(0)) >= THREADS
        self.calls = self.compiled()

    def compiled(self) -> pathlib.Path:
        program = self.scratch / "calls"
        options = ["-std=c11", "-O2", "-pthread", f"-I{self.library}"]
        subprocess.run([compiler(), *options, here / "calls.c", self.library / "libpcompact.a", "-o", program], check=True)
        return program

    @property
    def folder(self) -> pathlib.Path:
        """Where the programs run."""
        return self.scratch / "crates" / "inside"

    def make(self, heap: Heap) -> None:
        self.folder.mkdir(parents=True, exist_ok=True)
        words = ["--mib", 32, "--live", 50, "--log", heap.log, "--references", 5, "--version", heap.version]
        subprocess.run([self.plain, "generate", self.folder / "image", *map(str, words)], check=True, stdout=subprocess.DEVNULL)

    def lines(self, *command: object) -> list[list[str]]:
        """What a program prints, line by line and word by word."""
        done = subprocess.run([str(word) for word in command], cwd=self.folder, check=True, capture_output=True, text=True)
        return [line.split() for line in done.stdout.splitlines()]

    def by_c(self, way: str, threads: int) -> dict[str, float]:
        times = [tuple(map(int, words)) for words in self.lines(self.calls, way, "image", f"by-{way}", threads, COPIES)]
        return {part: min(column) for part, column in zip(("whole", *PHASES), zip(*times))}

    def by_pcompact(self, workers: int) -> dict[str, float]:
        times = [tuple(map(int, words)) for words in self.lines(self.inside, workers, COPIES)]
        return {"whole": min(map(sum, times)), "collection": min(collection for _, collection in times)}

    def by_plain(self) -> dict[str, float]:
        """All laps but those with files. Lines of another shape tell other things."""
        laps = {words[0]: int(words[1]) for words in self.lines(self.plain, "phases", "image", "by-plain") if len(words) == 2}
        return {"whole": sum(time for lap, time in laps.items() if lap not in ("read", "write"))}

    def jobs(self) -> dict:
        ways = {way: lambda way=way: self.by_c(way, 0) for way in WAYS}
        jobs = {**ways, "inside": lambda: self.by_pcompact(1), "plain": self.by_plain}
        if self.has_processors:
            jobs |= {f"{way} threads": lambda way=way: self.by_c(way, THREADS) for way in BY_THREADS}
            jobs["workers"] = lambda: self.by_pcompact(THREADS)
        return jobs

    def compare(self) -> None:
        """Ends the process where two programs left different images of one heap."""
        ways = BY_THREADS if self.has_processors else WAYS
        first, *others = (*(f"by-{way}" for way in ways), "by-plain", "compacted")
        for other in others:
            if not filecmp.cmp(self.folder / first, self.folder / other, shallow=False):
                sys.exit(f"{first} and {other} differ; the files are in {self.folder}")


def least_times(programs: Programs, heap: Heap, count: int) -> dict[str, dict[str, float]]:
    """Of each job the least nanoseconds of each part. The jobs take turns in going first."""
    programs.make(heap)
    jobs = list(programs.jobs().items())
    rounds = []
    for k in range(count):
        rounds.append({name: job() for name, job in jobs[k % len(jobs):] + jobs[:k % len(jobs)]})
        programs.compare()
    return {name: {part: min(r[name][part] for r in rounds) for part in rounds[0][name]} for name, _ in jobs}


class Goals:
    """Whether all goals are kept so far."""

    def __init__(self):
        self.are_kept = True

    def verdict(self, found: float, goal: float) -> str:
        self.are_kept = self.are_kept and found <= goal
        return f"{found:.2f}, goal {goal}: {'kept' if found <= goal else 'missed'}"


def milliseconds(nanoseconds: float) -> str:
    return f"{nanoseconds / 1e6:.1f} ms"


def tell_heap(heap: Heap, least: dict[str, dict[str, float]], goals: Goals) -> None:
    """What was found of one call."""
    inside, plain = (least[job]["whole"] for job in ("inside", "plain"))
    alone = least["inside"]["collection"]
    print(f"{heap}: inside pcompact {milliseconds(inside)}, of that its collection {milliseconds(alone)}; the plain program's phases "
          f"{milliseconds(plain)}")
    for way, words in WAYS.items():
        call = least[way]["whole"]
        print(f"  one call {words}, {milliseconds(call)}: to inside {goals.verdict(call / inside, TO_INSIDE)}; to the plain phases "
              f"{goals.verdict(call / plain, TO_PLAIN)}; to the collection {call / alone:.2f}", flush=True)


def tell_threads(least: dict[str, dict[str, float]], goals: Goals) -> None:
    workers = least["workers"]["whole"]
    for way, (words, one_call) in BY_THREADS.items():
        found = least[f"{way} threads"]
        threads = found["whole"]
        phases = ", ".join(f"{phase} {milliseconds(found[phase])}" for phase in PHASES)
        print(f"  {THREADS} threads {words}, {milliseconds(threads)} ({phases}): to one call {threads / least[one_call]['whole']:.2f}; to "
              f"{THREADS} workers inside pcompact, {milliseconds(workers)}, {goals.verdict(threads / workers, BY_FOUR)}", flush=True)


def tell_small(programs: Programs, goals: Goals) -> None:
    for way, words in WAYS.items():
        rounds = [[int(word) / 1e3 for word in line] for line in programs.lines(programs.calls, "small", way, SMALL_CALLS)]
        for kind, times in zip(KINDS.values(), zip(*rounds)):
            print(f"64 words {words}, {kind}: microseconds, median {goals.verdict(statistics.median(times), SMALL_TIME)}; "
                  f"least {min(times):.2f}")


def tell_size(programs: Programs, goals: Goals) -> None:
    copy = programs.scratch / "stripped.a"
    shutil.copy(programs.library / "libpcompact.a", copy)
    subprocess.run(["strip", "--strip-unneeded", copy], check=True)
    print(f"libpcompact.a, stripped: MB, {goals.verdict(copy.stat().st_size / 1e6, LIBRARY_SIZE / 1e6)}")


def main() -> int:
    parser = argparse.ArgumentParser(description=__doc__, formatter_class=argparse.RawDescriptionHelpFormatter)
    parser.add_argument("--rounds", type=int, default=21, help="how often each program runs on a heap (21)")
    parser.add_argument("--scratch", type=pathlib.Path, help="where to build (a folder among the temporary files)",
                        default=pathlib.Path(tempfile.gettempdir()) / "pcompact_c-bench")
    asked = parser.parse_args()

    os.environ.setdefault("GLIBC_TUNABLES", TUNABLES)
    asked.scratch.mkdir(parents=True, exist_ok=True)
    programs, goals = Programs(asked.scratch.resolve()), Goals()
    for heap in (Heap(log, version) for version in KINDS for log in (9, 16)):
        least = least_times(programs, heap, asked.rounds)
        tell_heap(heap, least, goals)
        if programs.has_processors:
            tell_threads(least, goals)
    if not programs.has_processors:
        print(f"{THREADS} threads of a C program: skipped, as there are fewer than {THREADS} processors")
    tell_small(programs, goals)
    tell_size(programs, goals)
    return 0 if goals.are_kept else 1


if __name__ == "__main__":
    sys.exit(main())
