#!/usr/bin/env python3
"""Kills the built program in calls with `--atomic`, and looks what is left, and what the next call removes of that.

At random moments, drawn from a seed: the image is unchanged, and OUT has all of its old bytes or all of the right ones. In
every second run the image is collected in place. At most one new file is left beside OUT, under a name of the form in
docs/COMMANDS.md. Before that, in turn: each signal, after which the next call removes the new files; a call that works
meanwhile; files with such names that the command doesn't own; folders in which others may rename. Ends with status 1 if
something else is left.

usage: tests/faults/test_killed.py [PROGRAM [SEED [COUNT]]]      (a part needs root)
"""
import argparse
import array
import collections
import contextlib
import fcntl
import os
import pathlib
import random
import re
import resource
import signal
import subprocess
import sys
import tempfile
import time
from collections.abc import Iterator

# Finds the package `tests` from any folder, and writes nothing beside its modules.
sys.dont_write_bytecode = True
sys.path.insert(0, str(pathlib.Path(__file__).resolve().parents[2]))
from tests.models.image import FRONT, header
from tests.support.cases import BASE, COLLECTED, COMPACTED, ONE_WORKER, upgraded
from tests.support.program import Answer, Tried, built

OBJECTS = 2 ** 17
OLD = b"what stood there before" * 1000
NEW_NAME = re.compile(r"\.pcompact-\d+\.tmp")
SIGNALS = (signal.SIGTERM, signal.SIGINT, signal.SIGHUP, signal.SIGQUIT, signal.SIGKILL)
STRANGER = 12
# Until a call has made its new files, in seconds.
PATIENCE = 30
COLLECT = "collect heap out --workers 1 --atomic"
# What is printed, and which files are made.
CALLS = {
    COLLECT: (COLLECTED, {"out": COMPACTED}),
    "record heap out schedule --workers 1 --atomic": (COLLECTED, {"out": COMPACTED, "schedule": ONE_WORKER.encode()}),
    "upgrade heap out --atomic": ("roots 4\n", {"out": upgraded(BASE)}),
}


def new(number: int) -> str:
    return f".pcompact-{number}.tmp"


class Leftovers:
    """A folder in which calls leave new files."""

    def __init__(self, tried: Tried):
        self.tried = tried
        self.here = tried.folder

    def lay(self, **files: bytes) -> None:
        """Makes these the files of the folder, besides the program."""
        for path in self.here.iterdir():
            if path != self.tried.program:
                path.rmdir() if path.is_dir() and not path.is_symlink() else path.unlink()
        for name, content in files.items():
            self.tried.write(name, content)

    def expect(self, is_right: bool, what: str) -> None:
        self.tried.count += 1
        if not is_right:
            self.tried.is_wrong(what)

    def names(self, folder: str = ".") -> set[str]:
        """The names of new files that are there."""
        return {path.name for path in (self.here / folder).iterdir() if path.name.startswith(".pcompact-")}

    @contextlib.contextmanager
    def held(self, words: str, count: int) -> Iterator[tuple[subprocess.Popen, int]]:
        """A call that has made so many new files and waits for its image, and where the image can be written."""
        pipe = self.here / "pipe"
        os.mkfifo(pipe)
        end = os.open(pipe, os.O_RDWR)
        call = subprocess.Popen([self.tried.program, *words.replace("heap", "pipe").split()], cwd=self.here,
                                stdin=subprocess.DEVNULL, stdout=subprocess.DEVNULL, preexec_fn=as_from_a_terminal)
        try:
            until = time.monotonic() + PATIENCE
            while len(self.names()) < count and time.monotonic() < until:
                time.sleep(0.01)
            # It may be about to lock them.
            time.sleep(0.1)
            yield call, end
        finally:
            call.kill()
            call.wait()
            with contextlib.suppress(OSError):
                os.close(end)
            pipe.unlink()


def as_from_a_terminal() -> None:
    """No signal is ignored, as some are in a background job, and none writes a core."""
    resource.setrlimit(resource.RLIMIT_CORE, (0, 0))
    for number in (signal.SIGTERM, signal.SIGINT, signal.SIGHUP, signal.SIGQUIT):
        signal.signal(number, signal.SIG_DFL)


def try_signals(it: Leftovers) -> None:
    """A killed call leaves its new files, and the next one removes them."""
    for words, (line, made) in CALLS.items():
        for number in SIGNALS:
            it.lay(heap=BASE, **dict.fromkeys(made, OLD))
            with it.held(words, len(made)) as (call, _):
                call.send_signal(number)
                ended = call.wait(PATIENCE)
            what = f"pcompact {words}, ended by {number.name}"
            it.expect(ended == -number, f"{what}: status {ended}")
            it.expect(len(it.names()) <= len(made), f"{what}: {sorted(it.names())} are left")
            it.expect(all(it.tried.read(name) == OLD for name in made), f"{what}: a file is changed")
            it.tried.run(words, Answer(0, line))
            it.expect(it.names() == set(), f"{what}: the next call leaves {sorted(it.names())}")
            it.expect(all(it.tried.read(name) == right for name, right in made.items()), f"{what}: the next call is wrong")


def try_faults(it: Leftovers) -> None:
    """A call that ends with a fault has removed what others left, and its own new file."""
    it.lay(heap=BASE[:-1], out=OLD, **{new(0): b"left"})
    it.tried.run(COLLECT, Answer(1, err="pcompact: fault 5 truncated body\n"))
    it.expect(it.names() == set() and it.tried.read("out") == OLD, f"after a fault {sorted(it.names())} are left")


def try_living(it: Leftovers) -> None:
    """What a call works on stays, whatever other calls do meanwhile."""
    for words, (_, made) in CALLS.items():
        it.lay(heap=BASE, **dict.fromkeys(made, OLD))
        with it.held(words, len(made)) as (call, end):
            working = it.names()
            for other, (line, _) in CALLS.items():
                it.tried.run(other, Answer(0, line))
                it.expect(it.names() == working, f"pcompact {other} leaves {it.names()} of {working} beside a call that works")
            os.write(end, BASE)
            os.close(end)
            ended = call.wait(PATIENCE)
        it.expect(ended == 0 and it.names() == set(), f"pcompact {words} beside other calls: status {ended}, {it.names()}")
        it.expect(all(it.tried.read(name) == right for name, right in made.items()), f"pcompact {words} beside others is wrong")


def try_kept(it: Leftovers) -> None:
    """Of what has the name of a new file only unlocked regular files go that belong to this user and have no other name, up to
    the sixteenth name from the new file's on."""
    it.lay(heap=BASE, secret=b"secret")
    left = {new(number) for number in (0, 7, 12, 21)}
    kept = {new(5), new(22), new(40), ".pcompact-x.tmp", ".pcompact-01.tmp", ".pcompact-.tmp", ".pcompact-7.tmp.old"}
    for name in left | kept:
        it.tried.write(name, b"left")
    (it.here / new(1)).hardlink_to(it.here / "secret")
    (it.here / new(2)).mkdir()
    (it.here / new(3)).symlink_to("secret")
    os.mkfifo(it.here / new(4))
    kept |= {new(number) for number in range(1, 5)}
    if os.geteuid() == 0:
        it.tried.write(new(8), b"a stranger's")
        os.chown(it.here / new(8), STRANGER, -1)
        kept.add(new(8))
    with (it.here / new(5)).open() as locked:
        fcntl.flock(locked, fcntl.LOCK_EX)
        it.tried.run(COLLECT, Answer(0, COLLECTED, made={"out": COMPACTED}))
    it.expect(it.names() == kept, f"of these names {sorted(it.names())} stay and not {sorted(kept)}")
    it.expect(it.tried.read("secret") == b"secret" and os.readlink(it.here / new(3)) == "secret", "a link is followed")


def try_own(it: Leftovers) -> None:
    """What a call reads, writes or prints to stays, whatever its name and however it is named."""
    line = f"collect {new(0)} out --workers 1 --atomic"
    for words, link in ((line, None), (line.replace(new(0), "link"), new(0)), (line.replace(new(0), f"aside/../{new(0)}"), None)):
        it.lay(**{new(0): BASE, new(1): b"left"})
        (it.here / "aside").mkdir()
        if link:
            (it.here / "link").symlink_to(link)
        it.tried.run(words, Answer(0, COLLECTED, made={"out": COMPACTED}))
        it.expect(it.names() == {new(0)}, f"pcompact {words} leaves {sorted(it.names())}")
    for option in ("--svg", "--html"):
        it.lay(**{new(1): BASE, new(0): ONE_WORKER.encode(), new(2): b"left"})
        it.tried.run(f"timeline {new(1)} {new(0)} {option} out --atomic", Answer(0, None))
        it.expect(it.names() == {new(0), new(1)}, f"timeline {option} of such files leaves {sorted(it.names())}")
    it.lay(heap=BASE, **{new(0): OLD, new(1): OLD, new(2): b"left"})
    it.tried.run(f"record heap {new(0)} {new(1)} --workers 1 --atomic", Answer(0, COLLECTED))
    right = (it.tried.read(new(0)), it.tried.read(new(1))) == (COMPACTED, ONE_WORKER.encode())
    it.expect(right and it.names() == {new(0), new(1)}, f"record to such files leaves {sorted(it.names())}")
    it.lay(heap=BASE)
    with (it.here / new(0)).open("wb") as out, (it.here / new(1)).open("wb") as err:
        it.tried.run(COLLECT, Answer(0, made={"out": COMPACTED}), stdout=out, stderr=err)
    it.expect(it.names() == {new(0), new(1)} and it.tried.read(new(0)) == COLLECTED.encode(), "standard output is removed")


def try_folders(it: Leftovers) -> None:
    """In a folder in which others may rename nothing is removed."""
    rows = [(0o755, None, True), (0o700, None, True), (0o1777, None, True), (0o775, None, False), (0o757, None, False)]
    if os.geteuid() == 0:
        rows += [(0o755, STRANGER, False), (0o1777, STRANGER, False)]
    for mode, owner, is_removed in rows:
        it.lay(heap=BASE)
        aside = it.here / "aside"
        aside.mkdir()
        (aside / new(0)).write_bytes(b"left")
        aside.chmod(mode)
        if owner is not None:
            os.chown(aside, owner, -1)
        it.tried.run("collect heap aside/out --workers 1 --atomic", Answer(0, COLLECTED))
        found = {path.name: path.read_bytes() for path in aside.iterdir()}
        wanted = {"out": COMPACTED} if is_removed else {"out": COMPACTED, new(0): b"left"}
        it.expect(found == wanted, f"a folder of mode {mode:o}, owner {owner}: {sorted(found)} stay and not {sorted(wanted)}")
        for path in aside.iterdir():
            path.unlink()


GROUPS = (try_signals, try_faults, try_living, try_kept, try_own, try_folders)


def large() -> bytes:
    """An image of 4 MiB, half of it objects that refer to the next one."""
    words = [header(2, 1), 0, 999, 999] * OBJECTS
    words[1:-4:4] = range(5, 4 * OBJECTS, 4)
    live = array.array("Q", range(0, 4 * OBJECTS, 4))
    front = FRONT.pack(b"PCHEAP01", 9, OBJECTS, len(words), 0)
    return front + array.array("Q", words).tobytes() + live.tobytes()


class Killing:
    """A folder in which the program is killed."""

    def __init__(self, tried: Tried):
        self.tried = tried
        self.image = large()
        self.seconds = 0.0
        self.right = b""
        self.left: collections.Counter[str] = collections.Counter()

    def words(self, out: str) -> list[str]:
        return [str(self.tried.program), "collect", "heap", out, "--workers", "2", "--atomic"]

    def prepare(self) -> None:
        """What the right bytes are, and how long it takes."""
        self.tried.write("heap", self.image)
        took = []
        for _ in range(3):
            start = time.monotonic()
            subprocess.run(self.words("out"), cwd=self.tried.folder, check=True, stdout=subprocess.DEVNULL)
            took.append(time.monotonic() - start)
        self.seconds = max(took)
        self.right = self.tried.read("out")

    def kill(self, out: str, seconds: float) -> None:
        """Kills one run after so long, and looks what is left."""
        self.tried.write("heap", self.image)
        self.tried.write("out", OLD)
        with subprocess.Popen(self.words(out), cwd=self.tried.folder, stdout=subprocess.DEVNULL) as running:
            time.sleep(seconds)
            running.kill()
        self.tried.count += 1
        old = self.image if out == "heap" else OLD
        kind = {old: "old", self.right: "new"}.get(self.tried.read(out))
        if kind is None or (out != "heap" and self.tried.read("heap") != self.image):
            self.tried.is_wrong(f"killed after {seconds:.4f} s: a file is neither what it was nor what it should be")
        self.left[f"{out} is {kind}"] += 1
        self.look_beside(seconds)

    def look_beside(self, seconds: float) -> None:
        """What else is left is one new file at most, under its own name. It is removed."""
        left = [path for path in self.tried.folder.iterdir() if path.name not in ("heap", "out", self.tried.program.name)]
        if len(left) > 1 or not all(NEW_NAME.fullmatch(path.name) for path in left):
            self.tried.is_wrong(f"killed after {seconds:.4f} s: {sorted(path.name for path in left)} are left")
        for path in left:
            self.left["a new file is left beside"] += 1
            path.unlink()


def main() -> int:
    parser = argparse.ArgumentParser(description=__doc__.partition("\nusage:")[0],
                                     formatter_class=argparse.RawDescriptionHelpFormatter)
    parser.add_argument("program", nargs="?", type=pathlib.Path, help="the program (the one that fits the sources)")
    parser.add_argument("seed", nargs="?", default="1", help="any text (1)")
    parser.add_argument("count", nargs="?", type=int, default=200, help="how many runs (200)")
    asked = parser.parse_args()
    chance = random.Random(asked.seed)
    with tempfile.TemporaryDirectory() as folder:
        tried = Tried(asked.program or built(), pathlib.Path(folder))
        leftovers = Leftovers(tried)
        for group in GROUPS:
            group(leftovers)
        leftovers.lay()
        killing = Killing(tried)
        killing.prepare()
        for number in range(asked.count):
            killing.kill(("out", "heap")[number % 2], chance.uniform(0, 1.2) * killing.seconds)
    print(f"a run takes {killing.seconds:.3f} s")
    print(", ".join(f"{kind}: {count}" for kind, count in sorted(killing.left.items())))
    print(f"{max(tried.count - tried.wrong, 0)} passed, {tried.wrong} failed")
    return 1 if tried.wrong else 0


sys.exit(main())
