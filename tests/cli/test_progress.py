#!/usr/bin/env python3
"""What --progress shows on standard error, and that all else is as without it: status, standard output and files, also where
something goes wrong.

A clock that goes on by 1000 seconds at one of its readings makes a short run a long one.

usage: tests/cli/test_progress.py [PROGRAM]      (needs a C compiler)
"""
import os
import pathlib
import re
import subprocess
import sys
import time

# Finds the package `tests` from any folder, and writes nothing beside its modules.
sys.dont_write_bytecode = True
sys.path.insert(0, str(pathlib.Path(__file__).resolve().parents[2]))
from tests.cli.test_import import DUMP
from tests.support.cases import BASE, COLLECTED, COMPACTED, ONE_WORKER, try_groups
from tests.support.program import PRELOAD, Answer, Tried
from tests.support.terminal import on_terminal

SEEDED = "--words 4096 --live 50 --region-log 9 --seed 1"
LARGE = "--words 1048576 --live 50 --region-log 9 --seed 1"
COLUMNS = 63

# Each command that has the option, the files that it makes, and its phases as they are shown.
READ, AGAIN, WORK, WRITE = "read", "read again", "work in memory", "write"
COMMANDS = [
    ("collect base out --workers 2", ["out"], [READ, WORK, WRITE]),
    ("record base out list --workers 1", ["out", "list"], [READ, WORK, WRITE, WRITE]),
    ("replay base schedule", [], [READ, WORK, READ, WORK]),
    ("verify base compacted", [], [READ, READ, WORK, WORK]),
    ("upgrade base out", ["out"], [READ, WORK, WRITE]),
    ("import dump out", ["out"], [READ, WORK, AGAIN, WORK, WRITE]),
    ("compare dump dump", [], [READ, WORK, AGAIN, WORK] * 2),
    ("summary base", [], [READ, WORK]),
    ("order base", [], [READ, WORK]),
    ("map base --after", [], [READ, WORK]),
    ("text base", [], [READ, WORK]),
    ("assemble text out", ["out"], [READ, WORK, WRITE]),
    ("timeline base schedule", [], [READ, WORK, READ, WORK]),
    (f"generate out {SEEDED}", ["out"], [WRITE]),
]
FIGURES = re.compile(r"pcompact: (read(?: again)?|write) (\d+\.\d) (per cent|MiB)(?:, (\d+) MiB a second(?:, (\d+) s left)?)?")


def begin(tried: Tried) -> None:
    for name, content in (("compacted", COMPACTED), ("schedule", ONE_WORKER), ("dump", DUMP), ("cut", BASE[:100])):
        tried.write(name, content)
    tried.write("text", run(tried, "text base").stdout)
    tried.run(f"generate large {LARGE}", Answer(0, None))


def run(tried: Tried, words: str, **how) -> subprocess.CompletedProcess:
    tried.count += 1
    streams = {"stdin": subprocess.DEVNULL, "stdout": subprocess.PIPE, "stderr": subprocess.PIPE, **how}
    return subprocess.run([tried.program, *words.split()], cwd=tried.folder, timeout=60, check=False, **streams)


def plain(tried: Tried, words: str, made: list[str]) -> Answer:
    """What the words answer without the option."""
    done = run(tried, words)
    return Answer(done.returncode, done.stdout.decode(), done.stderr.decode(), {name: tried.read(name) for name in made})


def late(tried: Tried, reading: int) -> dict[str, str]:
    """The environment in which the clock is 1000 seconds ahead from this reading on."""
    library = tried.folder / "fail_stats.so"
    if not library.exists():
        subprocess.run(["cc", "-shared", "-fPIC", "-O2", "-o", library, PRELOAD / "fail_stats.c"], check=True)
    return {**os.environ, "LD_PRELOAD": str(library), "LATE": str(reading)}


def lines_of(shown: str, columns: int = COLUMNS) -> list[str] | None:
    """The lines that overwrite one another, without the last, which erases them. None if it isn't so."""
    *lines, rest = shown.split("\r")
    if rest or not lines or lines[-1].strip() or any(len(line) != columns for line in lines):
        return None
    return [line.rstrip() for line in lines[:-1]]


def phases_of(lines: list[str]) -> list[str]:
    """The phase of each line whose form is right."""
    return [found[1] if (found := FIGURES.fullmatch(line)) else WORK if line == f"pcompact: {WORK}" else line for line in lines]


def try_lines(tried: Tried) -> None:
    """Each command shows its phases and erases them, and does what it does without the option."""
    begin(tried)
    for words, made, phases in COMMANDS:
        owed = plain(tried, words, made)
        done = run(tried, f"{words} --progress=always")
        lines = lines_of(done.stderr.decode())
        if lines is None or phases_of(lines) != phases:
            tried.is_wrong(f"pcompact {words} --progress=always shows {done.stderr!r}")
        for option in ("--progress=never", "--progress=auto"):
            tried.run(f"{words} {option}", owed)
        any_error = re.compile(r".*", re.DOTALL)
        for option in ("--progress", "--progress=always", "--progress --verbose"):
            tried.run(f"{words} {option}", Answer(0, owed.out, any_error, owed.made))


# Whether progress is shown where standard error is no terminal.
WHENS = (
    ("", False), ("--progress", True), ("--progress=always", True), ("--progress=never", False), ("--progress=auto", False),
    ("--progress=never --progress=always", True), ("--progress=always --progress=never", False),
    ("--progress --progress=auto", True), ("--progress=always --verbose=never", True), ("--verbose=always --progress=never", False),
)


def try_values(tried: Tried) -> None:
    """The last value counts; after the word `--` there are no options; `board` has no such option."""
    for option, is_shown in WHENS:
        done = run(tried, f"verify base compacted {option}")
        if (done.returncode, done.stdout) != (0, b"same\n") or bool(done.stderr) != is_shown:
            tried.is_wrong(f"pcompact verify base compacted {option}: {done}")
    tried.run("collect --workers 2 -- base --progress=always", Answer(0, COLLECTED, made={"--progress=always": COMPACTED}))
    tried.run("board --progress", Answer(2, err="error: unexpected argument '--progress' found\n"))


def try_terminal(tried: Tried) -> None:
    """On a terminal a line comes once a second has passed, and never with the value `never`."""
    for words, made, phases in COMMANDS:
        for option in ("", "--progress=auto", "--progress=never"):
            if (found := on_terminal(tried, f"{words} {option}")) != (0, ""):
                tried.is_wrong(f"pcompact {words} {option}, on a terminal: {found}")
        status, shown = on_terminal(tried, words, env=late(tried, 2))
        lines = lines_of(shown)
        if status or lines is None or phases_of(lines) != phases:
            tried.is_wrong(f"pcompact {words}, on a terminal after a second: {status}, {shown!r}")
        if (found := on_terminal(tried, f"{words} --progress=never", env=late(tried, 2))) != (0, ""):
            tried.is_wrong(f"pcompact {words} --progress=never, on a terminal after a second: {found}")


def try_figures(tried: Tried) -> None:
    """Share, rate and time left of a file of 8 MiB: half of it is done after 1000 seconds. From a pipe the share isn't known."""
    size = (tried.folder / "large").stat().st_size
    for words, given in (("collect large out --workers 1", None), ("collect - out --workers 1", tried.read("large"))):
        streams = {} if given is None else {"input": given, "stdin": None}
        readings = 0
        for number in range(3, 12):
            done = run(tried, f"{words} --progress=always", env=late(tried, number), **streams)
            lines = [FIGURES.fullmatch(line) for line in lines_of(done.stderr.decode()) or []]
            for found in filter(None, lines):
                if found[1] != READ or found[4] != "0":
                    continue
                readings += 1
                part = float(found[2]) / 100 if given is None else float(found[2]) * (1 << 20) / size
                wanted = (1 - part) / part * 1000
                is_known = (found[3] == "per cent") == (given is None) and (found[5] is not None) == (given is None)
                if not is_known or found[5] and abs(int(found[5]) - wanted) > 0.02 * wanted + 2:
                    tried.is_wrong(f"pcompact {words} shows {found[0]!r}")
        if not readings:
            tried.is_wrong(f"pcompact {words} shows no rate")


def try_pace(tried: Tried) -> None:
    """Not many more than ten lines a second, and shares that only grow; OUT ends with all of it."""
    owed = plain(tried, "collect large out --workers 2", ["out"])
    for workers in (1, 2, 4):
        begun = time.monotonic()
        done = run(tried, f"collect large out --workers {workers} --progress=always")
        passed = time.monotonic() - begun
        lines = lines_of(done.stderr.decode())
        found = [FIGURES.fullmatch(line) for line in lines or []]
        shares = {phase: [float(it[2]) for it in found if it and it[1] == phase] for phase in (READ, WRITE)}
        is_right = all(some and some == sorted(some) and some[-1] <= 100 for some in shares.values())
        if lines is None or not is_right or len(lines) > 10 * passed + 4 or tried.read("out") != owed.made["out"]:
            tried.is_wrong(f"pcompact collect large out --workers {workers} shows {lines} in {passed} s")


def try_columns(tried: Tried) -> None:
    """A line is cut where the terminal ends."""
    for columns, room in ((30, 29), (64, 63), (200, 63), (2, 1), (1, 0)):
        done = run(tried, "collect base out --workers 1 --progress=always", env={**os.environ, "COLUMNS": str(columns)})
        if not (done.returncode == 0 and (lines := lines_of(done.stderr.decode(), room)) and all("pcompact: read"[:room] in lines[0] for _ in lines)):
            tried.is_wrong(f"pcompact collect in {columns} columns shows {done.stderr!r}")


def try_failures(tried: Tried) -> None:
    """What goes wrong is reported after the erased line, as without the option; and so are timings."""
    for words in ("collect cut out --workers 1", "verify base base", "collect nothing out --workers 1", "import base out",
                  "collect base /dev/full --workers 1", "record base out base --workers 1", "verify base base --verbose"):
        owed = run(tried, words)
        done = run(tried, f"{words} --progress=always")
        told = done.stderr.decode().rpartition("\r")
        if (done.returncode, done.stdout, told[2].encode()) != (owed.returncode, owed.stdout, owed.stderr) or told[1] and lines_of(told[0] + told[1]) is None:
            tried.is_wrong(f"pcompact {words} --progress=always: {done}")
    done = run(tried, "collect base out --workers 1 --progress=always --stats")
    before, _, after = done.stderr.decode().rpartition("\r")
    if lines_of(before + "\r") is None or not after.startswith("pcompact: read ") or "peak memory" not in after:
        tried.is_wrong(f"collect with --progress and --stats: {done}")


def try_error_streams(tried: Tried) -> None:
    """Standard error that is full, closed, without a reader, or the file that is written."""
    for words, made, _ in COMMANDS:
        owed = plain(tried, words, made)
        line = f"{words} --progress=always"
        with open("/dev/full", "wb") as full:
            tried.run(line, owed, stderr=full)
        tried.run(line, owed, preexec_fn=lambda: os.close(2))
        reading, writing = os.pipe()
        os.close(reading)
        with os.fdopen(writing, "wb") as gone:
            tried.run(line, owed, stderr=gone)
        if made == ["out"]:
            with (tried.folder / "both").open("wb") as both:
                tried.run(line.replace("out", "/dev/stderr"), Answer(0, owed.out), stderr=both)
            if tried.read("both") != owed.made["out"]:
                tried.is_wrong(f"pcompact {line}: OUT that is standard error has other bytes")


def try_silent_clock(tried: Tried) -> None:
    """Without a clock nothing is shown. Without the option it isn't read."""
    for words, made, _ in COMMANDS:
        owed = plain(tried, words, made)
        silent = {**late(tried, 1000), "NO_CLOCK": "1"}
        tried.run(f"{words} --progress=always", owed, env=silent)
        for number in range(2, 8):
            tried.run(f"{words} --progress=always", Answer(0, owed.out, re.compile(r".*", re.DOTALL), owed.made),
                      env={**silent, "NO_CLOCK": str(number)})


GROUPS = (try_lines, try_values, try_terminal, try_figures, try_pace, try_columns, try_failures, try_error_streams, try_silent_clock)

if __name__ == "__main__":
    sys.exit(try_groups(GROUPS))
