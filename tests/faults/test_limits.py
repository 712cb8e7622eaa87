#!/usr/bin/env python3
"""Runs the built program with little memory, a small stack, short files and few descriptors, in many steps of each limit.

A run ends with a status of the program's own: with the answer that it gives without a limit, or with status 1 and the one
line that is owed, of fault 11 where memory or the stack is limited, else of fault 13. No run ends by a signal or leaves a
new file. After a fault OUT holds what it held, where --atomic is given; else it is empty, or behind fault 13 holds a
beginning of the right bytes. So little memory that the C library finds no room for itself is passed over. With a stack
of fewer than STACK bytes the system may end the program, but before it has opened a file: nothing has changed then.

Where a file grows too long the system sends SIGXFSZ, which the program ignores only where its caller does, as here. Ends
with status 1 where something is another way.

usage: tests/faults/test_limits.py [PROGRAM] [--steps N]
"""
import argparse
import collections
import dataclasses
import pathlib
import resource
import signal
import subprocess
import sys
import tempfile

# Finds the package `tests` from any folder, and writes nothing beside its modules.
sys.dont_write_bytecode = True
sys.path.insert(0, str(pathlib.Path(__file__).resolve().parents[2]))
from tests.cli.test_import import DUMP
from tests.support.cases import BASE, COMPACTED, ONE_WORKER
from tests.support.program import SECONDS, Tried, built, owed

OLD = b"what stood there before" * 40
KIB = 1024
# A stack of this number of bytes is enough for each command.
STACK = 144 * KIB
PAGE = 4 * KIB
LIMITS = {
    "memory": resource.RLIMIT_AS,
    "stack": resource.RLIMIT_STACK,
    "files": resource.RLIMIT_FSIZE,
    "descriptors": resource.RLIMIT_NOFILE,
}
# How many of a hundred steps are of each kind.
SHARES = {"memory": 64, "stack": 16, "files": 12, "descriptors": 8}
FAULT_11 = b"pcompact: fault 11 memory\n"
FAULT_13 = b"pcompact: fault 13 input or output\n"


@dataclasses.dataclass(frozen=True)
class Command:
    words: str
    # The files that it makes.
    made: tuple[str, ...] = ()
    # Of these the one that differs from run to run.
    varies: str | None = None

    def is_atomic(self) -> bool:
        return "--atomic" in self.words


COMMANDS = [
    Command("--help"),
    Command("board"),
    Command("summary heap"),
    Command("order heap"),
    Command("text heap"),
    Command("map heap --after"),
    Command("map heap --svg out", ("out",)),
    Command("verify heap after"),
    Command("replay heap schedule"),
    Command("timeline heap schedule"),
    Command("timeline heap schedule --html out", ("out",)),
    Command("assemble lines out --atomic", ("out",)),
    Command("import dump out --atomic", ("out",)),
    Command("generate out --words 4096 --live 50 --region-log 5 --seed 1 --atomic", ("out",)),
    Command("upgrade heap out --to 3 --atomic", ("out",)),
    Command("collect heap out --workers 1", ("out",)),
    Command("collect heap out --workers 2 --atomic", ("out",)),
    Command("record heap out written --workers 1 --atomic", ("out", "written")),
    Command("record heap out written --workers 3", ("out", "written"), "written"),
    Command("collect large out --workers 4 --atomic", ("out",)),
    Command("record large out written --workers 4 --atomic", ("out", "written"), "written"),
]


@dataclasses.dataclass(frozen=True)
class Done:
    """What came of a run."""
    status: int
    out: bytes
    err: bytes
    made: dict[str, bytes | None]
    # New files that it left beside those.
    left: list[str]

    def changed_nothing(self) -> bool:
        return all(content == OLD for content in self.made.values())


@dataclasses.dataclass(frozen=True)
class Limit:
    kind: str
    most: int


class Limited:
    """A folder in which the program runs in limits."""

    def __init__(self, tried: Tried):
        self.tried = tried
        self.ends: collections.Counter[str] = collections.Counter()
        self.library = 0

    def run(self, command: Command, limit: Limit | None = None) -> Done:
        """Runs a command over old files, in a limit or in none."""
        def begin() -> None:
            signal.signal(signal.SIGXFSZ, signal.SIG_IGN)
            resource.setrlimit(resource.RLIMIT_CORE, (0, 0))
            if limit is not None:
                resource.setrlimit(LIMITS[limit.kind], (limit.most, limit.most))

        for name in command.made:
            self.tried.write(name, OLD)
        words = [str(self.tried.program), *command.words.split()]
        done = subprocess.run(words, cwd=self.tried.folder, capture_output=True, stdin=subprocess.DEVNULL,
                              preexec_fn=begin, restore_signals=False, timeout=SECONDS)
        made = {name: self.content(name) for name in command.made}
        return Done(done.returncode, done.stdout, done.stderr, made, self.take_left())

    def content(self, name: str) -> bytes | None:
        return self.tried.read(name) if (self.tried.folder / name).exists() else None

    def take_left(self) -> list[str]:
        """The new files that a run has left, which are removed."""
        paths = sorted(self.tried.folder.glob(".pcompact-*"))
        for path in paths:
            path.unlink()
        return [path.name for path in paths]

    def prepare(self) -> None:
        """Makes the files that the commands read, and finds how much memory the loader wants."""
        for name, content in {"heap": BASE, "after": COMPACTED, "schedule": ONE_WORKER, "dump": DUMP}.items():
            self.tried.write(name, content)
        self.tried.write("lines", self.run(Command("text heap")).out)
        self.run(Command("generate large --words 1048576 --live 60 --region-log 9 --seed 4"))
        version = Command("--version")
        high = 64 * KIB * KIB
        while high > 0 and self.run(version, Limit("memory", high)).status != 127:
            high -= KIB * KIB
        self.library = self.least(high, KIB * KIB, lambda done: done.status != 127, version)

    def least(self, low: int, step: int, is_enough, command: Command) -> int:
        """The least memory, by pages above `low`, with which a run is as it should be."""
        while not is_enough(self.run(command, Limit("memory", low + step))):
            step *= 2
        high = low + step
        while high - low > PAGE:
            middle = (low + high) // 2
            if is_enough(self.run(command, Limit("memory", middle))):
                high = middle
            else:
                low = middle
        return high

    def range_of(self, command: Command, right: Done, kind: str) -> tuple[int, int]:
        """From where the program begins to where nothing is refused any more."""
        if kind == "memory":
            enough = self.least(self.library, 16 * PAGE, lambda done: done.status == right.status, command)
            return self.library, enough + max(enough - self.library, 64 * PAGE)
        if kind == "stack":
            return 16 * KIB, 512 * KIB
        if kind == "files":
            return 0, PAGE + max(len(content) for content in right.made.values())
        return 0, 16

    def try_limits(self, command: Command, steps: int) -> None:
        """Runs a command under several limits."""
        right = self.run(command)
        for kind, share in SHARES.items():
            if kind == "files" and not command.made:
                continue
            low, high = self.range_of(command, right, kind)
            count = min(high - low, max(1, steps * share // 100))
            for step in range(count):
                self.try_limit(command, right, Limit(kind, low + (high - low) * step // count))

    def try_limit(self, command: Command, right: Done, limit: Limit) -> None:
        self.tried.count += 1
        done = self.run(command, limit)
        end = end_of(command, right, limit, done)
        self.ends[end or "wrong"] += 1
        if end is None or done.left:
            self.tried.is_wrong(f"pcompact {command.words}, {limit.kind} limited to {limit.most}: status {done.status}, "
                                f"{done.err[:200]!r}, left: {' '.join(done.left) or 'nothing'}")


def end_of(command: Command, right: Done, limit: Limit, done: Done) -> str | None:
    """How a run ended, or None where it may not end so."""
    if is_right(command, right, done):
        return "ended well"
    if is_fault(command, right, limit, done):
        return "ended in the fault"
    if done.status == 127 and b"error while loading shared libraries" in done.err and done.changed_nothing():
        return "found no C library"
    has_no_stack = limit.kind == "stack" and limit.most < STACK and done.status in (-signal.SIGSEGV, -signal.SIGKILL)
    return "had no stack" if has_no_stack and done.changed_nothing() else None


def is_right(command: Command, right: Done, done: Done) -> bool:
    same = [content for name, content in done.made.items() if name != command.varies]
    wanted = [content for name, content in right.made.items() if name != command.varies]
    return ((done.status, done.out, done.err, same) == (right.status, right.out, right.err, wanted)
            and OLD not in done.made.values())


def is_fault(command: Command, right: Done, limit: Limit, done: Done) -> bool:
    """Whether a run ended with the fault that is owed, and left no more in a file than it may."""
    is_memory = limit.kind in ("memory", "stack")
    if (done.status, done.out, owed(done.err)) != (1, b"", FAULT_11 if is_memory else FAULT_13):
        return False
    if command.is_atomic():
        return done.changed_nothing()
    return all(content in (OLD, b"") or (not is_memory and right.made[name].startswith(content))
               for name, content in done.made.items() if name != command.varies)


def main() -> int:
    parser = argparse.ArgumentParser(description=__doc__.partition("\nusage:")[0],
                                     formatter_class=argparse.RawDescriptionHelpFormatter)
    parser.add_argument("program", nargs="?", type=pathlib.Path, help="the program (the one that fits the sources)")
    parser.add_argument("--steps", type=int, default=1500, help="about how many limits (1500)")
    asked = parser.parse_args()
    with tempfile.TemporaryDirectory() as folder:
        limited = Limited(Tried(asked.program or built(), pathlib.Path(folder)))
        limited.prepare()
        for command in COMMANDS:
            limited.try_limits(command, max(1, asked.steps // len(COMMANDS)))
        tried = limited.tried
    print(f"{tried.count} limits: " + ", ".join(f"{count} {end}" for end, count in sorted(limited.ends.items())))
    print(f"{max(tried.count - tried.wrong, 0)} passed, {tried.wrong} failed")
    return 1 if tried.wrong else 0


if __name__ == "__main__":
    sys.exit(main())
