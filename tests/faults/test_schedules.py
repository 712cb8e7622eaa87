#!/usr/bin/env python3
"""Checks how `pcompact replay` and `pcompact timeline` read their schedule: line by line, from any device, in little memory.

A schedule takes at most three times its length plus 64 MiB. An endless device, or one that waits, is refused at its first
malformed line. Schedules are also cut at each byte, and come in pieces of many sizes, in which lines lie across the ends.

usage: tests/faults/test_schedules.py [PROGRAM]
"""
import argparse
import contextlib
import os
import pathlib
import subprocess
import sys
import tempfile
import threading
import time
from collections.abc import Callable, Iterator

# Finds the package `tests` from any folder, and writes nothing beside its modules.
sys.dont_write_bytecode = True
sys.path.insert(0, str(pathlib.Path(__file__).resolve().parents[2]))
from tests.models.image import Fault
from tests.models.schedule import read
from tests.support.cases import BASE, ONE_WORKER
from tests.support.program import Answer, Tried, built, fault

COMMANDS = ["replay heap", "timeline heap"]
# Enough that the memory allowed besides doesn't hide one more copy of the schedule.
LINES = 10_000_000
MEMORY_BESIDES = 64 * 2 ** 20
# The program reads this number of bytes at a time.
PIECE = 8192
SECONDS = 20
# Runs a command in 512 MiB of address space.
LIMITED = ["sh", "-c", 'ulimit -v 524288; exec "$@"', "sh"]

# Writes a schedule to a pipe; the event is set once the command has ended.
Feed = Callable[[int, threading.Event], None]


def peak_of(tried: Tried, words: str) -> tuple[int, int]:
    """Runs a command, and returns its status and its peak memory in bytes."""
    with subprocess.Popen([tried.program, *words.split()], cwd=tried.folder, stdout=subprocess.DEVNULL) as process:
        _, status, usage = os.wait4(process.pid, 0)
        process.returncode = os.waitstatus_to_exitcode(status)
    return process.returncode, usage.ru_maxrss * 1024


def try_memory(tried: Tried) -> None:
    """Long schedules, of the shortest lines and of longer ones."""
    tried.write("heap", BASE)
    for line in ("0 poll ?\n", "1 look 3 out2\n"):
        text = "schedule 1 2\n" + line * LINES
        tried.write("schedule", text)
        for words in ("replay heap schedule", "timeline heap schedule", "timeline heap schedule --svg drawn",
                      "timeline heap schedule --html drawn"):
            tried.count += 1
            status, peak = peak_of(tried, words)
            if status or peak > 3 * len(text) + MEMORY_BESIDES:
                tried.is_wrong(f"pcompact {words}: status {status}, {peak} bytes of memory for {len(text)} bytes of {line!r}")
    (tried.folder / "schedule").unlink()
    (tried.folder / "drawn").unlink(missing_ok=True)


@contextlib.contextmanager
def fed(feed: Feed) -> Iterator[int]:
    """A pipe that a thread feeds until this ends: its end to read."""
    reading, writing = os.pipe()
    ended = threading.Event()

    def work() -> None:
        with contextlib.suppress(BrokenPipeError), os.fdopen(writing, "wb", buffering=0):
            feed(writing, ended)

    thread = threading.Thread(target=work, daemon=True)
    thread.start()
    try:
        yield reading
    finally:
        ended.set()
        os.close(reading)
        thread.join()


def endless(beginning: bytes, more: bytes) -> Feed:
    """Writes the beginning once, and then the rest again and again."""
    def feed(pipe: int, ended: threading.Event) -> None:
        os.write(pipe, beginning)
        while not ended.is_set():
            os.write(pipe, more * 1000)

    return feed


def waiting(beginning: bytes) -> Feed:
    """Writes the beginning, and then neither more nor an end."""
    def feed(pipe: int, ended: threading.Event) -> None:
        os.write(pipe, beginning)
        ended.wait(SECONDS)

    return feed


def in_pieces(text: bytes, size: int) -> Feed:
    def feed(pipe: int, _ended: threading.Event) -> None:
        for start in range(0, len(text), size):
            os.write(pipe, text[start:start + size])

    return feed


def run_fed(tried: Tried, words: str, feed: Feed, answer: Answer) -> None:
    """Runs a command on a schedule that comes through a pipe. It must not wait for the pipe's end."""
    with fed(feed) as pipe:
        begun = time.monotonic()
        tried.run(f"{words} /dev/stdin", answer, stdin=pipe, by=LIMITED)
        if time.monotonic() - begun > SECONDS / 2:
            tried.is_wrong(f"pcompact {words}: waits for more than the first malformed line")


def try_endless(tried: Tried) -> None:
    """Devices without an end."""
    tried.write("heap", BASE)
    lines = b"schedule 1 1\n" + b"0 poll more\n" * 2000
    for words in COMMANDS:
        tried.run(f"{words} /dev/zero", fault("14 schedule line 1"), by=LIMITED)
        run_fed(tried, words, endless(b"", b"y\n"), fault("14 schedule line 1"))
        run_fed(tried, words, endless(b"schedule 1 1\n", b"y\n"), fault("14 schedule line 2"))
        run_fed(tried, words, endless(lines, b"\0"), fault("14 schedule line 2002"))
        run_fed(tried, words, endless(lines, b" 0 poll more\n"), fault("14 schedule line 2002"))


def try_waiting(tried: Tried) -> None:
    """Devices that give a malformed line, and then neither more nor an end."""
    tried.write("heap", BASE)
    for words in COMMANDS:
        run_fed(tried, words, waiting(b"schedule 2 1\n"), fault("14 schedule line 1"))
        run_fed(tried, words, waiting(b"schedule 1 1\n0 poll more\n0 poll\n"), fault("14 schedule line 3"))


def answer_of(text: str) -> Answer:
    """The answer of `replay` to a schedule with all replies that ends before all is settled, or to a malformed one."""
    try:
        read(text.encode())
    except Fault as malformed:
        return fault(str(malformed))
    return Answer(0, text + "open\n")


def try_cuts(tried: Tried) -> None:
    """A schedule, cut before each of its bytes."""
    tried.write("heap", BASE)
    for length in range(len(ONE_WORKER)):
        tried.write("schedule", ONE_WORKER[:length])
        tried.run("replay heap schedule", answer_of(ONE_WORKER[:length]))


def try_borders(tried: Tried) -> None:
    """Lines across the end of a piece, with the end before each of their bytes, well-formed and malformed."""
    tried.write("heap", BASE)
    for shift in range(12):
        # Each of these lines is one byte longer than the others.
        text = "schedule 1 64\n" + "63 poll more\n" * shift + "0 poll more\n" * (PIECE // 6)
        tried.write("schedule", text)
        tried.run("replay heap schedule", answer_of(text))
        for place in range(PIECE - 14, PIECE + 14, 3):
            malformed = text[:place] + "?" + text[place + 1:]
            tried.write("schedule", malformed)
            tried.run("replay heap schedule", answer_of(malformed))


def try_pieces(tried: Tried) -> None:
    """Schedules that come in pieces of one size."""
    tried.write("heap", BASE)
    long = "schedule 1 64\n" + "63 poll more\n" * 2000
    for size in (1, 2, 3, 7, 63, 64, 65, 4096, 8191, 8192, 8193):
        run_fed(tried, "replay heap", in_pieces(ONE_WORKER.encode(), size), Answer(0, ONE_WORKER + "finished\n"))
        run_fed(tried, "replay heap", in_pieces(long.encode(), size), Answer(0, long + "open\n"))


def try_failing(tried: Tried) -> None:
    """Devices that fail."""
    tried.write("heap", BASE)
    (tried.folder / "folder").mkdir()
    for words in COMMANDS:
        tried.run(f"{words} folder", fault("13 input or output"))
        tried.run(f"{words} /proc/self/mem", fault("13 input or output"))


def main() -> int:
    parser = argparse.ArgumentParser(description=__doc__.partition("\nusage:")[0],
                                     formatter_class=argparse.RawDescriptionHelpFormatter)
    parser.add_argument("program", nargs="?", type=pathlib.Path, help="the program (the one that fits the sources)")
    program = parser.parse_args().program or built()
    with tempfile.TemporaryDirectory() as folder:
        tried = Tried(program, pathlib.Path(folder))
        for group in (try_memory, try_endless, try_waiting, try_cuts, try_borders, try_pieces, try_failing):
            group(tried)
    print(f"{tried.count - tried.wrong} passed, {tried.wrong} failed")
    return 1 if tried.wrong else 0


if __name__ == "__main__":
    sys.exit(main())
