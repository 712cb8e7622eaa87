#!/usr/bin/env python3
"""Runs `timeline`: its words, its looks and its files. test_timeline_views.py compares what it shows.

usage: tests/cli/test_timeline.py [PROGRAM]
"""
import dataclasses
import os
import pathlib
import pty
import subprocess
import sys

# Finds the package `tests` from any folder, and writes nothing beside its modules.
sys.dont_write_bytecode = True
sys.path.insert(0, str(pathlib.Path(__file__).resolve().parents[2]))
from tests.cli.test_map import environment
from tests.support.cases import BASE, ONE_WORKER, try_groups
from tests.support.program import Answer, Tried, fault, usage

FULL = pathlib.Path("/dev/full")
FAULT_13 = "13 input or output"
OLD = b"what stood there before" * 4000
LINE = "workers 1 lines 19 granted 3 completed 3 settled 3 freed 3 taken 2 finished\n"
MARKS = "mark: c claims t takes a freed region f frees one s settles x several\n"
HANDS = "region in hand: _ never . seldom : half + mostly # always\n"
BLOCK_HANDS = "region in hand: ▁ never ░ seldom ▒ half ▓ mostly █ always\n"
AXIS = "          lines 2 to 20 of the schedule, not time\n"
TAKEN = """\
line 5: worker 0 drains 1 into 0 and frees 1, worker 0 takes it in line 8
line 11: worker 0 drains 2 into 1 and frees 2, worker 0 takes it in line 16
line 18: worker 0 drains 3 into 2 and frees 3, nobody takes it
"""


def lanes(shares: str, marks: str, hands: str = HANDS) -> Answer:
    return Answer(0, f"{LINE}worker  0 |{shares}|\n          |{marks}|\n{AXIS}{hands}{MARKS}{TAKEN}")


def put(tried: Tried) -> None:
    tried.write("image", BASE)
    tried.write("schedule", ONE_WORKER)


def try_words(tried: Tried) -> None:
    """Words that `timeline` doesn't have."""
    put(tried)
    for width in ("0", "1001"):
        tried.run(f"timeline image schedule --width {width}",
                  usage(f"error: invalid value '{width}' for '--width <n>': {width} is not in 1..=1000\n"))
    tried.run("timeline image", usage("error: the following required arguments were not provided:\n  <SCHEDULE>\n"))
    tried.run("timeline image schedule --html", usage("error: a value is required for '--html <FILE>' but none was supplied\n"))
    tried.run("timeline image schedule --svg one --html other", dataclasses.replace(
        Answer(2, err="pcompact: --svg and --html cannot be used together\n"), made={"one": None, "other": None}))


def try_looks(tried: Tried) -> None:
    """Letters and blocks by the locale, and colours where they are asked for, or on a terminal."""
    put(tried)
    letters, blocks = lanes("#", "x"), lanes("█", "x", BLOCK_HANDS)
    for names, answer in (({}, letters), ({"LANG": "C.UTF-8"}, blocks), ({"LC_ALL": "C", "LANG": "C.UTF-8"}, letters)):
        tried.run("timeline image schedule --width 1", answer, env=environment(**names))
        tried.run("timeline image schedule --width 1 --letters --verbose", letters, env=environment(**names))
    for words in ("--color", "--color=always", "--color=never --color=always", "--color --color=auto"):
        tried.run(f"timeline image schedule --width 1 --letters {words}", lanes("\x1b[32m#\x1b[0m", "\x1b[35mx\x1b[0m"))
    coloured = lanes("\x1b[32m█\x1b[0m", "\x1b[35mx\x1b[0m", BLOCK_HANDS)
    tried.run("timeline image schedule --width 1 --color", coloured, env=environment(LANG="C.UTF-8"))
    for words in ("--color --no-color", "--color=always --no-color", "--color=never", "--color=auto"):
        tried.run(f"timeline image schedule --width 1 --letters {words}", letters)
    tried.run("timeline image schedule --letters", lanes("#" * 19, marks_of()))
    for flag, has_colours in (("", True), ("--no-color", False), ("--color=auto", True), ("--color=never", False)):
        ours, theirs = pty.openpty()
        words = [tried.program, "timeline", "image", "schedule", "--width", "1", "--letters", *flag.split()]
        tried.count += 1
        names = {name: value for name, value in os.environ.items() if name != "NO_COLOR"}
        subprocess.run(words, cwd=tried.folder, stdout=theirs, check=False, env={**names, "TERM": "xterm"})
        os.close(theirs)
        shown = os.read(ours, 4096)
        os.close(ours)
        if (b"\x1b[35mx\x1b[0m" in shown) != has_colours or b"granted 3" not in shown:
            tried.is_wrong(f"timeline on a terminal {flag}: {shown!r}")
    for columns in (30, 29, 28, 27, 12, 3, 1):
        ours, theirs = pty.openpty()
        words = [tried.program, "timeline", "image", "schedule", "--letters", "--no-color"]
        tried.count += 1
        subprocess.run(words, cwd=tried.folder, stdout=theirs, check=False, env={**os.environ, "COLUMNS": str(columns)})
        os.close(theirs)
        lane = os.read(ours, 4096).decode().replace("\r", "").splitlines()[1]
        os.close(ours)
        # Sixteen cells at least.
        if len(lane) != max(columns, 28) or not lane.startswith("worker  0 |#"):
            tried.is_wrong(f"on a terminal of {columns} columns a lane is {lane!r}")


def marks_of() -> str:
    """The marks of the base heap recorded with one worker, line by line, worked by hand."""
    return "".join({2: "c", 5: "f", 7: "s", 8: "t", 11: "f", 15: "s", 16: "t", 18: "f", 20: "s"}.get(k, " ") for k in range(2, 21))


def try_files(tried: Tried) -> None:
    """Files that can't be read or written, two that are one, and schedules that the image doesn't take."""
    put(tried)
    (tried.folder / "timeline_folder").mkdir()
    tried.write("kept", OLD)
    for words in ("timeline nothing schedule", "timeline image nothing", "timeline image timeline_folder",
                  "timeline nothing schedule --svg kept", "timeline image nothing --html kept",
                  "timeline image schedule --svg timeline_folder", "timeline image schedule --html /dev/full"):
        tried.run(words, fault(FAULT_13))
    same = Answer(2, err="pcompact: same file\n")
    for words in ("timeline image image", "timeline image ./image", "timeline image schedule --svg image",
                  "timeline image schedule --html ./image", "timeline image schedule --svg ./schedule",
                  "timeline image schedule --html schedule --atomic"):
        tried.run(words, same)
    tried.run("timeline image schedule --svg /dev/full --atomic", Answer(2, err="pcompact: not a regular file\n"))
    tried.write("wrong", ONE_WORKER.replace("0 claim 1 yes", "0 claim 1 no"))
    tried.write("malformed", ONE_WORKER.replace("0 claim 1 yes", "0 claim 1 maybe"))
    tried.write("early", "schedule 1 1\n0 poll ?\n0 settle 0 ?\n")
    tried.run("timeline image early", fault("14 schedule line 3"))
    for name in ("wrong", "malformed"):
        tried.run(f"timeline image {name}", fault("14 schedule line 8"))
        tried.run(f"timeline image {name} --html kept --atomic", fault("14 schedule line 8"))
        tried.run(f"timeline image {name} --svg drawn", fault("14 schedule line 8", {"drawn": None}))
    tried.run("timeline image wrong --verbose", Answer(1, err=(
        "pcompact: fault 14 schedule line 8\npcompact: file SCHEDULE wrong\npcompact: reason the reply is another\npcompact: reply yes\n")))
    tried.write("cut", BASE[:319])
    tried.run("timeline cut schedule --svg kept", fault("5 truncated body"))
    if tried.read("kept") != OLD or tried.read("image") != BASE:
        tried.is_wrong("a file is changed that no drawing came into")
    for option in ("svg", "html"):
        tried.run(f"timeline image schedule --{option} drawn", Answer(0, LINE))
        for flag in ("", " --atomic"):
            tried.write("kept", OLD)
            tried.run(f"timeline image schedule --{option} kept{flag}", Answer(0, LINE))
            if tried.read("kept") != tried.read("drawn"):
                tried.is_wrong("a file is not emptied before a drawing is written")
    with FULL.open("wb") as full:
        tried.run("timeline image schedule", fault(FAULT_13), stdout=full)
        tried.run("timeline image schedule --html drawn --atomic", fault(FAULT_13), stdout=full)


GROUPS = (try_words, try_looks, try_files)

if __name__ == "__main__":
    sys.exit(try_groups(GROUPS))
