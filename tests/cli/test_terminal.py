#!/usr/bin/env python3
"""What the script that starts the program does at a terminal: it tells the program the terminal's size, and where a signal ends
the program it erases the line of progress and removes what --atomic had begun.

usage: tests/cli/test_terminal.py [PROGRAM]
"""
import fcntl
import os
import pathlib
import pty
import select
import signal
import struct
import subprocess
import sys
import termios
import time

# Finds the package `tests` from any folder, and writes nothing beside its modules.
sys.dont_write_bytecode = True
sys.path.insert(0, str(pathlib.Path(__file__).resolve().parents[2]))
from tests.support.cases import BASE, COLLECTED, COMPACTED, try_groups
from tests.support.program import TOP, Answer, Tried

LARGE = "--words 8388608 --live 50 --region-log 9 --seed 1"
SECONDS = 60
# What a terminal sends for a signal.
KEYS = {signal.SIGINT: b"\x03", signal.SIGQUIT: b"\x1c"}
# The most columns of a line of progress.
LONGEST = 63
# Shows what the script sets, and what the program prints.
SIZE = '#!/bin/sh\nprintf "%s %s\\n" "${COLUMNS-unset}" "${LINES-unset}"\n'


def script(tried: Tried, name: str, program: pathlib.Path) -> pathlib.Path:
    """A script with the lines of the launcher by which it runs a program."""
    lines = (TOP / "pcompact").read_text()
    running = lines[lines.index("# One heap for all threads"):]
    path = tried.folder / name
    path.write_text(f"#!/bin/sh\nset -u\ntrap '' XFSZ\nprogram={program}\n{running}")
    path.chmod(0o755)
    return path


def be_alone_at(terminal: int) -> None:
    """Makes this the terminal of a process that ignores no signal, as one that is started beside a script does."""
    fcntl.ioctl(terminal, termios.TIOCSCTTY, 0)
    for number in (signal.SIGHUP, signal.SIGINT, signal.SIGQUIT, signal.SIGTERM):
        signal.signal(number, signal.SIG_DFL)


class Terminal:
    """A program on a terminal that is new, or on some of its streams alone, and what it shows."""

    def __init__(self, tried: Tried, words: list, size: tuple[int, int] = (80, 24), streams: str = "012", **env: str):
        tried.count += 1
        self.shown = b""
        self.mine, its = pty.openpty()
        fcntl.ioctl(its, termios.TIOCSWINSZ, struct.pack("HHHH", size[1], size[0], 0, 0))
        names = {"0": "stdin", "1": "stdout", "2": "stderr"}
        how = {name: its if number in streams else subprocess.DEVNULL for number, name in names.items()}
        plain = {name: value for name, value in os.environ.items() if name not in ("COLUMNS", "LINES")}
        self.process = subprocess.Popen(words, cwd=tried.folder, env={**plain, **env}, start_new_session=True,
                                        preexec_fn=lambda: be_alone_at(its), **how)
        os.close(its)

    def read(self, seconds: float) -> bool:
        """Reads what comes within this time. Whether more may come."""
        if not select.select([self.mine], [], [], seconds)[0]:
            return True
        try:
            part = os.read(self.mine, 4096)
        except OSError:
            return False
        self.shown += part
        return bool(part)

    def ended(self) -> tuple[int, str]:
        """The status and all that was shown."""
        end = time.monotonic() + SECONDS
        while time.monotonic() < end and self.read(1):
            pass
        status = self.process.wait(SECONDS)
        os.close(self.mine)
        return status, self.shown.decode().replace("\r\n", "\n")


def try_sizes(tried: Tried) -> None:
    """COLUMNS and LINES are the terminal's, unless COLUMNS is set. Elsewhere neither is."""
    shows = tried.folder / "shows"
    shows.write_text(SIZE)
    shows.chmod(0o755)
    told = script(tried, "sized", shows)
    rows = [((80, 24), "012", {}, "80 24"), ((40, 10), "1", {}, "40 10"), ((40, 10), "12", {"COLUMNS": "99"}, "99 unset"),
            ((33, 7), "01", {"COLUMNS": "", "LINES": "5"}, "33 7")]
    for size, streams, env, owed in rows:
        if (found := Terminal(tried, [told], size, streams, **env).ended()) != (0, f"{owed}\n"):
            tried.is_wrong(f"at a terminal of {size} and with {env} the script sets {found}")
    done = subprocess.run([told], capture_output=True, text=True, check=False,
                          env={name: value for name, value in os.environ.items() if name not in ("COLUMNS", "LINES")})
    if done.stdout != "unset unset\n" or done.stderr:
        tried.is_wrong(f"where there is no terminal the script sets {done}")


def try_pictures(tried: Tried) -> None:
    """No row of `map` is wider than the terminal, nor is a line of progress."""
    run = script(tried, "run", tried.program)
    tried.run(f"generate large {LARGE}", Answer(0, None))
    for columns in (80, 60, 40):
        status, shown = Terminal(tried, [run, "map", "large", "--after", "--no-color", "--letters"], (columns, 24)).ended()
        rows = [line for line in shown.split("\n") if "|" in line]
        if status or len(rows) < 4 or max(map(len, rows)) > columns:
            tried.is_wrong(f"map on {columns} columns: {status}, {shown}")
        status, shown = Terminal(tried, [run, "collect", "large", "out", "--progress"], (columns, 24)).ended()
        lines = shown.split("\r")
        if status or len(lines) < 3 or max(map(len, lines[:-1])) > min(columns - 1, LONGEST) or not lines[-1].startswith("prefix "):
            tried.is_wrong(f"collect on {columns} columns: {status}, {shown!r}")


def try_answers(tried: Tried) -> None:
    """What a command reads, prints and ends with is as without the script; so it is where standard input is closed."""
    run = script(tried, "run", tried.program)
    tried.write("bad", BASE[:100])
    for words, owed, said in (("collect base out --workers 2", 0, COLLECTED), ("verify base base", 1, "pcompact: differs word 1\n"),
                              ("collect base", 2, "error: "), ("collect bad out", 1, "pcompact: fault 5 ")):
        for by in ([run], ["sh", "-c", 'exec "$@" <&-', "sh", run]):
            status, shown = Terminal(tried, [*by, *words.split()]).ended()
            if status != owed or not shown.startswith(said):
                tried.is_wrong(f"{words} at a terminal: {status}, {shown!r}")
    status, shown = Terminal(tried, ["sh", "-c", '"$0" collect - - <base >piped', run]).ended()
    if (status, shown) != (0, COLLECTED) or tried.read("piped") != COMPACTED:
        tried.is_wrong(f"collect - - beside a terminal: {status}, {shown!r}")


def left_in(tried: Tried) -> list[str]:
    return [path.name for path in tried.folder.glob(".pcompact-*")]


# A signal may come when the program has ended on a busy machine, and is sent again to another call, at most so often.
TRIES = 40


def interrupted(tried: Tried, words: list, moment: bytes, number: signal.Signals) -> tuple[int, str]:
    """The status of a call that gets a signal once this was shown, and all that it showed."""
    terminal = Terminal(tried, words)
    while moment not in terminal.shown and terminal.read(SECONDS):
        pass
    if number in KEYS:
        os.write(terminal.mine, KEYS[number])
    else:
        terminal.process.send_signal(number)
    return terminal.ended()


def try_signals(tried: Tried) -> None:
    """A signal ends the program at once, at any moment: OUT stays, no new file is left, and the line of progress is gone."""
    words = [script(tried, "run", tried.program), "collect", "large", "out", "--workers", "1", "--atomic", "--progress"]
    for number in (signal.SIGINT, signal.SIGQUIT, signal.SIGTERM, signal.SIGHUP):
        for moment in (b"read", b"work in memory", b"write"):
            for _ in range(TRIES):
                tried.write("out", "old")
                status, shown = interrupted(tried, words, moment, number)
                if status:
                    break
            lines = shown.split("\r")
            is_gone = lines[-1] == "" and not lines[-2].strip() and len(lines[-2]) >= LONGEST
            if status == 0 and moment == b"write" and tried.read("out")[:5] == b"PCHEA":
                # It had ended before.
                continue
            if (status, tried.read("out"), left_in(tried), is_gone) != (-number, b"old", [], True):
                tried.is_wrong(f"{number.name} at {moment}: {status}, {left_in(tried)}, {shown[-200:]!r}")


def try_leftovers(tried: Tried) -> None:
    """A file of another call that runs stays, and so does an input with the name of such a file."""
    run = script(tried, "run", tried.program)
    for name, words in ((".pcompact-3.tmp", "collect large out --atomic"), (".pcompact-5.tmp", "collect .pcompact-5.tmp out --atomic")):
        path = tried.folder / name
        path.write_bytes(tried.read("large"))
        with path.open("rb") as held:
            if "large" in words:
                fcntl.flock(held, fcntl.LOCK_EX)
            for _ in range(TRIES):
                status, shown = interrupted(tried, [run, *words.split(), "--workers", "1", "--progress"], b"work", signal.SIGINT)
                if status:
                    break
            if status != -signal.SIGINT or not path.exists():
                tried.is_wrong(f"{words}, interrupted: {status}, {left_in(tried)}, {shown[-200:]!r}")
        for it in tried.folder.glob(".pcompact-*"):
            it.unlink()


GROUPS = (try_sizes, try_pictures, try_answers, try_signals, try_leftovers)

if __name__ == "__main__":
    sys.exit(try_groups(GROUPS))
