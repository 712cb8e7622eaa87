#!/usr/bin/env python3
"""How many threads a collection starts in each of its phases, by the number of workers; that those of `record` begin together, take
turns with `--turns`, and don't wait long for threads that can't be started; and that none gives up where others are in its way.

A phase is shared by as many threads as there are workers, unless the heap is too small for all to be worth it: the
first thread starts the others, and in most phases one more that does nothing. Over each heap below just one phase has
enough to do for several threads, beside the fills, which have each worker at work. Both fewer and more threads are wrong.

What can be distinguished from outside: the words of a large file are read by several threads before it is read in order, live
objects are checked before the end of the file is asked for, and what comes then is counted as one.

usage: tests/faults/test_threads.py [PROGRAM]      (needs a C compiler)
"""
import array
import dataclasses
import itertools
import os
import pathlib
import re
import subprocess
import sys
import tempfile
import time

# Finds the package `tests` from any folder, and writes nothing beside its modules.
sys.dont_write_bytecode = True
sys.path.insert(0, str(pathlib.Path(__file__).resolve().parents[2]))
from tests.models.image import FRONT, header
from tests.support.program import PRELOAD, built

WORKERS = (1, 2, 3, 4, 64)
# How long `record` may take where threads can't be started: it waits for a tenth of a second, and other programs may be at work.
MOST_SECONDS = 3


@dataclasses.dataclass(frozen=True)
class Phase:
    """A phase that a heap makes large: for how many threads, and whether one more is started that does nothing."""
    name: str
    worth: int
    empty: int = 1

    def starts(self, most: int) -> int:
        """How many threads are started where there may be this number."""
        threads = min(most, self.worth)
        return threads - 1 + self.empty if threads > 1 else 0


FILLS = Phase("fills", 64)
READING, CHECK = "reading", "check"


@dataclasses.dataclass(frozen=True)
class Heap:
    """An image of objects of one size with this number of references, all to nothing, from one address on, and dead words."""
    name: str
    phase: Phase
    version: int
    region_log: int
    words: int
    objects: int = 20
    size: int = 1
    references: int = 0
    at: int = 0
    # In version 2, where it has more roots than objects.
    roots: int = 0

    def text(self) -> bytes:
        addresses = range(self.at, self.at + self.objects * self.size, self.size)
        words = array.array("Q", bytes(8 * self.words))
        words[self.at:self.at + len(addresses) * self.size] = array.array(
            "Q", [header(self.size, self.references), *[0] * (self.size - 1)] * self.objects)
        tail = [(self.version > 1) + a for a in addresses] * max(1, self.roots // self.objects)
        front = FRONT.pack(b"PCHEAP0%d" % self.version, self.region_log, len(tail), self.words, 0)
        return front + words.tobytes() + array.array("Q", tail).tobytes()


HEAPS = (
    Heap("small", Phase("none", 1), 1, 3, 64),
    Heap("small_rooted", Phase("none", 1), 2, 3, 64),
    # A thread for 65,536 words.
    Heap("read", Phase(READING, 8), 2, 9, 1 << 19),
    # For 16 times 64 live objects, of which 79 rows make shares of 27 for three.
    Heap("checked", Phase(CHECK, 4), 1, 9, 10_240, objects=5_000, size=2, references=1),
    # For 16,384 times 64 words, and a word of bits more. All of a heap may be as large as this; its words are read, too.
    Heap("marked", Phase("marks", 5, empty=0), 1, 16, 1 << 22),
    # For 8,192 regions. There are no more than twice as many.
    Heap("counted", Phase("counts", 2), 2, 3, 1 << 17),
    # For 512 regions to fill, where objects lie over the border of two.
    Heap("deferred", Phase("update of deferred objects", 4), 1, 3, 18_048, objects=1_500, size=12, references=1, at=9),
    # For 16,384 numbers, of which three have 23,334, 23,334 and 23,332.
    Heap("listed", Phase("redirection of the live list", 4), 1, 9, 70_144, objects=70_000, at=1),
    Heap("rooted", Phase("redirection of roots", 4), 2, 9, 70_144, roots=70_000, at=1),
    Heap("of_version_3", Phase("redirection of roots", 4), 3, 9, 70_144, roots=70_000, at=1),
)


# Its regions are ready at once, and so few that one thread fills all of them while another is started.
READY = Heap("ready", Phase("none", 1), 1, 3, 512, objects=64, size=8)
RECORDINGS = 100
SHARED = 5
# Here a fill often frees just one region, which the next worker is to take.
CHAINED = "--words 4096 --live 90 --region-log 6 --seed 1"

# In a heap of this number of regions of eight words workers often open one at once, and some then have to try again.
CONTENDED = "--words 131072 --live 97 --region-log 3 --seed 3"
COLLECTIONS = 5


@dataclasses.dataclass(frozen=True)
class Started:
    """How many threads a call started: before its file was read in order, then before it found the end, and then."""
    reading: int
    check: int
    later: int

    @classmethod
    def of(cls, noted: str) -> "Started":
        begin, end = noted.find("r"), noted.find("e")
        parts = noted[:begin], noted[begin:end], noted[end:]
        return cls(*(part.count("t") for part in parts))


def started(program: pathlib.Path, notes: pathlib.Path, room: pathlib.Path, words: str, **how) -> Started:
    subprocess.run(["sh", "-c", 'exec "$0" "$@" 3>told', program, *words.split()], check=True, cwd=room,
                   stdout=subprocess.DEVNULL, env=dict(os.environ, LD_PRELOAD=str(notes)), **how)
    return Started.of((room / "told").read_text())


def owed(heap: Heap, workers: int, is_pipe: bool) -> Started:
    """What a collection owes. The words of a heap of 131,072 are read side by side, also where another phase is large."""
    words = 0 if is_pipe or heap.words < 1 << 17 else heap.words // 65_536
    reading = Phase(READING, words).starts(workers)
    check = heap.phase.starts(workers) if heap.phase.name == CHECK else 0
    # With as many live objects as the live list needs to be shared, the check is shared too, row by row of 64.
    if heap.phase.name != CHECK:
        rows = -(-heap.objects // 64)
        share = -(-rows // max(1, min(workers, rows // 16)))
        check = Phase(CHECK, -(-rows // share)).starts(workers)
    # A heap of 524,288 words with roots is marked in parts of 262,144, each by one thread, before the end is asked for, too.
    if heap.version > 1 and heap.words >= 1 << 19:
        check += Phase("marking", heap.words >> 18).starts(workers)
    # Its live list is made in parts of 4,096 words of bits.
    if heap.version > 1:
        check += Phase("listing", (heap.words // 64 + 1) // 4_096).starts(workers)
    later = heap.phase.starts(workers) if heap.phase.name not in (READING, CHECK) else 0
    return Started(reading, check, later + FILLS.starts(workers))


def owed_to_look(heap: Heap, processors: int) -> Started:
    """What `summary` owes, which fills nothing."""
    collected = owed(heap, processors, False)
    is_looked_at = heap.phase.name in ("marks", "counts")
    return Started(collected.reading, collected.check, heap.phase.starts(processors) if is_looked_at else 0)


class Counted:
    """How often threads were counted, and how often they weren't as many as are owed."""

    def __init__(self, program: pathlib.Path, room: pathlib.Path):
        self.program = program
        self.room = room
        self.notes = room / "notes.so"
        self.count = 0
        self.wrong = 0
        subprocess.run(["cc", "-shared", "-fPIC", "-O2", "-o", self.notes, PRELOAD / "count_threads.c", "-ldl"], check=True)

    def run(self, heap: Heap, words: str, right: Started, **how) -> None:
        self.count += 1
        found = started(self.program, self.notes, self.room, words, **how)
        if found != right:
            self.wrong += 1
            print(f"{words}, which makes the {heap.phase.name} large: {found} and not {right}")

    def try_heap(self, heap: Heap) -> None:
        (self.room / heap.name).write_bytes(heap.text())
        for workers in WORKERS:
            for words in (f"collect {heap.name} out", f"record {heap.name} out schedule"):
                self.run(heap, f"{words} --workers {workers}", owed(heap, workers, False))
        if heap.phase.name == READING:
            self.run(heap, f"collect {heap.name} out --workers 3 --region-log 12 --allowance 9", owed(heap, 3, False))
        with (self.room / heap.name).open("rb") as file:
            pipe = subprocess.Popen(["cat"], stdin=file, stdout=subprocess.PIPE)
            self.run(heap, "collect /dev/stdin out --workers 3", owed(heap, 3, True), stdin=pipe.stdout)
            pipe.stdout.close()
            pipe.wait()
        processors = sorted(os.sched_getaffinity(0))
        for number in {1, min(3, len(processors))}:
            allowed = set(processors[:number])
            self.run(heap, f"summary {heap.name}", owed_to_look(heap, number),
                     preexec_fn=lambda: os.sched_setaffinity(0, allowed))

    def try_together(self) -> None:
        """The workers of `record` begin together: of a small heap several have a share in nearly all recordings, and now and then
        where other programs keep the processors busy. Workers that don't wait for each other have hardly ever one."""
        if len(os.sched_getaffinity(0)) < 2:
            print("there is one processor, and whether workers begin together is left out")
            return
        (self.room / READY.name).write_bytes(READY.text())
        self.count += 1
        shared = recordings = 0
        while shared < SHARED and recordings < RECORDINGS:
            recordings += 1
            subprocess.run([self.program, *f"record {READY.name} out schedule --workers 4".split()], check=True, cwd=self.room,
                           stdout=subprocess.DEVNULL)
            claims = re.findall(r"(?m)^(\d+) claim \d+ yes$", (self.room / "schedule").read_text())
            shared += len(set(claims)) > 1
        if shared < SHARED:
            self.wrong += 1
            print(f"in {shared} of {RECORDINGS} recordings by 4 workers several have a share")

    def try_turns(self) -> None:
        """With `--turns` each worker of `record` has work on a small heap, by one processor as by all, and the schedule is a whole one."""
        (self.room / READY.name).write_bytes(READY.text())
        subprocess.run([self.program, *f"generate chained {CHAINED}".split()], check=True, cwd=self.room, stdout=subprocess.DEVNULL)
        processors = sorted(os.sched_getaffinity(0))
        for heap, workers, number in itertools.product((READY.name, "chained"), (1, 2, 4), {1, len(processors)}):
            self.count += 1
            allowed = set(processors[:number])
            subprocess.run([self.program, *f"record {heap} out schedule --turns --workers {workers}".split()], check=True, cwd=self.room,
                           stdout=subprocess.DEVNULL, preexec_fn=lambda: os.sched_setaffinity(0, allowed))
            claims = re.findall(r"(?m)^(\d+) claim \d+ yes$", (self.room / "schedule").read_text())
            replayed = subprocess.run([self.program, "replay", heap, "schedule"], cwd=self.room, capture_output=True, text=True)
            if len(set(claims)) != workers or not replayed.stdout.endswith("finished\n"):
                self.wrong += 1
                print(f"record {heap} --turns by {number} processors: only {sorted(set(claims))} of {workers} workers have work, "
                      f"replay says {replayed.stdout[-20:]!r} {replayed.stderr!r}")

    def try_refused(self) -> None:
        """Where threads can't be started, `record` doesn't wait long for them, and its schedule is a whole one."""
        (self.room / READY.name).write_bytes(READY.text())
        for threads, turns in itertools.product(range(3), ("", " --turns")):
            self.count += 1
            words = f"record {READY.name} out schedule --workers 3{turns}".split()
            begun = time.monotonic()
            done = subprocess.run(["sh", "-c", 'exec "$@" 3>/dev/null', "sh", self.program, *words], cwd=self.room,
                                  env={**os.environ, "LD_PRELOAD": str(self.notes), "THREADS": str(threads)},
                                  capture_output=True, text=True)
            taken = time.monotonic() - begun
            replayed = subprocess.run([self.program, "replay", READY.name, "schedule"], cwd=self.room, capture_output=True, text=True)
            if done.returncode or taken > MOST_SECONDS or not replayed.stdout.endswith("finished\n"):
                self.wrong += 1
                print(f"record{turns} with {threads} threads: {taken:.1f} s, {done.stderr!r}, replay says {replayed.stdout!r}")

    def try_contended(self) -> None:
        """However often workers are in each other's way, each collection ends well, and alike."""
        for words in (f"generate contended {CONTENDED}", "collect contended right --workers 1"):
            subprocess.run([self.program, *words.split()], check=True, cwd=self.room, stdout=subprocess.DEVNULL)
        for words in ("collect contended out --workers 2", "collect contended out --workers 4",
                      "record contended out schedule --workers 4"):
            for _ in range(COLLECTIONS):
                self.count += 1
                done = subprocess.run([self.program, *words.split()], cwd=self.room, capture_output=True, text=True)
                if done.returncode or (self.room / "out").read_bytes() != (self.room / "right").read_bytes():
                    self.wrong += 1
                    print(f"{words}: {done.stderr!r}, or OUT has other bytes than by one worker")


def main() -> int:
    program = (pathlib.Path(sys.argv[1]) if len(sys.argv) > 1 else built()).resolve()
    with tempfile.TemporaryDirectory() as folder:
        counted = Counted(program, pathlib.Path(folder))
        for heap in HEAPS:
            counted.try_heap(heap)
        counted.try_together()
        counted.try_turns()
        counted.try_refused()
        counted.try_contended()
    print(f"{counted.count - counted.wrong} passed, {counted.wrong} failed")
    return 1 if counted.wrong else 0


if __name__ == "__main__":
    sys.exit(main())
