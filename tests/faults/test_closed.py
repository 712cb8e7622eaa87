#!/usr/bin/env python3
"""Standard streams that are closed when the program begins, in each combination, and a system without /proc.

A file that a command opens never gets the number of a standard stream. Where standard output is closed each command is fault
13 before it opens a file, and so is one that reads `-` where standard input is. What is printed on a standard error that is
closed is lost. Where /proc isn't mounted, which takes root and a mount namespace, what is printed of a file that is written
goes to standard error, and `-` is fault 13.

usage: tests/faults/test_closed.py [PROGRAM]
"""
import dataclasses
import itertools
import os
import pathlib
import subprocess
import sys

# Finds the package `tests` from any folder, and writes nothing beside its modules.
sys.dont_write_bytecode = True
sys.path.insert(0, str(pathlib.Path(__file__).resolve().parents[2]))
from tests.cli.test_import import DUMP
from tests.support.cases import BASE, COLLECTED, COMPACTED, ONE_WORKER, REPORT, try_groups
from tests.support.program import Answer, Tried, fault, owed

INPUT, OUTPUT, ERRORS = 0, 1, 2
FAULT_13 = fault("13 input or output")
OLD = b"yesterday's"
SEEDED = "--words 64 --live 50 --region-log 3 --seed 1"
# What stands for the text of the image, which is made by the program.
LINES = b"lines"
# Each command over files, with what it reads from standard input, if it reads `-`, and the files that it writes.
COMMANDS = (
    ("board", b"", ()), ("--help", b"", ()), ("--version", b"", ()),
    ("summary base", b"", ()), ("summary -", BASE, ()), ("order -", BASE, ()), ("text -", BASE, ()),
    ("map - --after", BASE, ()), ("map base --svg out", b"", ("out",)), ("map - --svg out --atomic", BASE, ("out",)),
    ("assemble lines out", b"", ("out",)), ("assemble - out", LINES, ("out",)),
    ("collect base out --workers 2", b"", ("out",)), ("collect - out --workers 2", BASE, ("out",)),
    ("collect base out --workers 2 --atomic", b"", ("out",)), ("collect base - --workers 2", b"", ()),
    ("collect base out --workers 2 --stats --progress", b"", ("out",)),
    ("record base out schedule --workers 1", b"", ("out", "schedule")), ("record - out schedule --workers 1", BASE, ("out", "schedule")),
    ("record base out - --workers 1", b"", ("out",)), ("upgrade base out", b"", ("out",)), ("upgrade - out --atomic", BASE, ("out",)),
    ("verify base after", b"", ()), ("verify base -", COMPACTED, ()), ("verify - after", BASE, ()),
    ("replay base lines_of_one", b"", ()), ("replay base -", ONE_WORKER.encode(), ()), ("replay - lines_of_one", BASE, ()),
    ("timeline base lines_of_one --html out", b"", ("out",)), ("timeline - lines_of_one", BASE, ()),
    ("import dump out", b"", ("out",)), ("import - out --classes list", DUMP, ("out", "list")),
    (f"generate out {SEEDED}", b"", ("out",)), (f"generate - {SEEDED}", b"", ()),
)


@dataclasses.dataclass(frozen=True)
class Done:
    """What a command has answered, and the files that are there then."""
    status: int
    out: bytes
    err: bytes
    files: dict[str, bytes]

    def told(self) -> tuple[int, bytes, bytes]:
        return self.status, self.out, self.err


def lay(tried: Tried) -> dict[str, bytes]:
    """Lays out what the commands read, and old files where they write. Returns all files."""
    for name, content in (("base", BASE), ("after", COMPACTED), ("dump", DUMP), ("lines_of_one", ONE_WORKER.encode()),
                          ("out", OLD), ("schedule", OLD), ("list", OLD)):
        tried.write(name, content)
    tried.write("lines", subprocess.run([tried.program, "text", "base"], cwd=tried.folder, capture_output=True).stdout)
    return files_of(tried)


def files_of(tried: Tried) -> dict[str, bytes]:
    return {file.name: file.read_bytes() for file in tried.folder.iterdir() if file.name != "pcompact"}


def called(tried: Tried, words: str, given: bytes, closed: tuple[int, ...]) -> Done:
    """What a command does where these streams are closed."""
    lines = lay(tried)["lines"]
    done = subprocess.run([tried.program, *words.split()], cwd=tried.folder, input=lines if given == LINES else given,
                          capture_output=True, timeout=60, preexec_fn=lambda: [os.close(number) for number in closed])
    return Done(done.returncode, done.stdout, owed(done.stderr), files_of(tried))


def wanted(right: Done, before: dict[str, bytes], reads: bool, closed: tuple[int, ...]) -> Done:
    """What is owed where these streams are closed, by what is right where none is."""
    if OUTPUT in closed or (INPUT in closed and reads):
        right = Done(1, b"", FAULT_13.err.encode(), before)
    return dataclasses.replace(right, err=b"") if ERRORS in closed else right


def try_closed(tried: Tried) -> None:
    """Each command with each combination of closed streams."""
    for words, given, _ in COMMANDS:
        before = lay(tried)
        right = called(tried, words, given, ())
        if right.status != 0:
            tried.is_wrong(f"pcompact {words}: {right.told()}")
        for closed in (found for count in (1, 2, 3) for found in itertools.combinations((INPUT, OUTPUT, ERRORS), count)):
            tried.count += 1
            found, owed = called(tried, words, given, closed), wanted(right, before, bool(given), closed)
            # Times differ from call to call.
            if "--stats" in words and owed.status == 0 and found.err and owed.err:
                found = dataclasses.replace(found, err=owed.err)
            if found != owed:
                tried.is_wrong(f"pcompact {words}, closed {closed}: {found.told()} and not {owed.told()}, or other files")


def try_changed(tried: Tried) -> None:
    """The files that a command is to write are as they were where it can't print, and others where it may."""
    for words, given, written in COMMANDS:
        unprinted, unsaid = called(tried, words, given, (OUTPUT,)), called(tried, words, given, (ERRORS,))
        for name in written:
            tried.count += 1
            if unprinted.files[name] != OLD or unsaid.files[name] == OLD:
                tried.is_wrong(f"pcompact {words}: {name} is another, with standard output or standard error closed")


def try_named(tried: Tried) -> None:
    """A closed stream by its other names is neither read nor written."""
    for words, closed in (("summary /dev/stdin", INPUT), ("verify after /dev/fd/0", INPUT),
                          (f"generate /dev/stderr {SEEDED}", ERRORS), ("collect base /proc/self/fd/2 --workers 1", ERRORS)):
        tried.count += 1
        if (found := called(tried, words, b"", (closed,))).status != 1:
            tried.is_wrong(f"pcompact {words}, closed {closed}: {found.told()}")
    tried.run("summary - --verbose", Answer(1, err=f"{FAULT_13.err}pcompact: file IMAGE -\npcompact: call open\n"
                                                  "pcompact: reason not open\n"), preexec_fn=lambda: os.close(INPUT))


WITHOUT_PROC = ["unshare", "-m", "sh", "-c", 'umount -l /proc && exec "$@"', "sh"]


def try_no_proc(tried: Tried) -> None:
    """Where /proc isn't mounted."""
    probe = subprocess.run([*WITHOUT_PROC, "true"], capture_output=True)
    if probe.returncode:
        print("without /proc nothing was tried: that takes root and a mount namespace")
        return
    lay(tried)
    for words in ("collect base out --workers 1", "collect base out --workers 1 --atomic"):
        tried.run(words, Answer(0, err=COLLECTED, made={"out": COMPACTED}), by=WITHOUT_PROC)
    line = [*WITHOUT_PROC, "sh", "-c", '"$1" collect base out --workers 1 >out', "sh", tried.program]
    done = subprocess.run(line, cwd=tried.folder, capture_output=True)
    tried.count += 1
    if (done.returncode, done.stderr, tried.read("out")) != (0, COLLECTED.encode(), COMPACTED):
        tried.is_wrong(f"without /proc OUT that is standard output: {done}")
    tried.run("summary base", Answer(0, REPORT), by=WITHOUT_PROC)
    reason = "pcompact: call open\npcompact: reason /proc is not mounted\n"
    tried.run("summary - --verbose", Answer(1, err=f"{FAULT_13.err}pcompact: file IMAGE -\n{reason}"), by=WITHOUT_PROC, input=BASE)
    tried.run("collect base - --workers 1 --verbose", Answer(1, err=f"{FAULT_13.err}pcompact: file OUT -\n{reason}"), by=WITHOUT_PROC)
    # It may be a standard stream.
    tried.write(".pcompact-3.tmp", "left")
    tried.run("collect base out --workers 1 --atomic", Answer(0, err=COLLECTED), by=WITHOUT_PROC)
    if not (tried.folder / ".pcompact-3.tmp").exists():
        tried.is_wrong("without /proc a leftover is removed")


GROUPS = (try_closed, try_changed, try_named, try_no_proc)

if __name__ == "__main__":
    sys.exit(try_groups(GROUPS))
