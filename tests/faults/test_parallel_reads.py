#!/usr/bin/env python3
"""Collects large images from regular files, of which several threads read all behind the front side by side, and from pipes,
which are read in order: both must answer the same, for images and for what is none, by any number of workers.

With each positioned read and each seek of the image failing in turn, a regular file must be read all the same. With any other
call on files failing it may also be fault 13, and then nothing or a beginning is written. Of a file that is cut before any
call, the answer must be a fault of what is left or as of the whole, and of one that is cut and grows again while it is
read, a fault of its bytes or the compaction of the whole.

usage: tests/faults/test_parallel_reads.py [PROGRAM]      (needs a C compiler)
"""
import os
import pathlib
import random
import subprocess
import sys
import tempfile
import threading

# Finds the package `tests` from any folder, and writes nothing beside its modules.
sys.dont_write_bytecode = True
sys.path.insert(0, str(pathlib.Path(__file__).resolve().parents[2]))
from tests.support.program import PRELOAD, built, owed

WORKERS = [1, 2, 3, 4, 8, 64]
# The region logs of each version.
SHAPES = {"1": ("3", "9", "16"), "2": ("3", "9", "16"), "3": ("9", "17")}
# What each command writes and how it is called over a large image, beside `made`, which it makes.
COMMANDS = ["collect image made --workers 1", "collect image made --workers 4", "record image made schedule --workers 4",
            "collect image made --workers 4 --region-log 12 --allowance 900", "summary image", "verify image compacted", "upgrade image made --to 3", "map image --svg made"]
FAULT_13 = b"pcompact: fault 13 input or output\n"
CUT_SHORT = (b"pcompact: fault 1 truncated header\n", b"pcompact: fault 5 truncated body\n")
passed = 0
failed = 0


def expect(is_right: bool, what: str) -> None:
    global passed, failed
    if is_right:
        passed += 1
    else:
        failed += 1
        print(f"wrong: {what}")


def collect(program: str, image: str, out: pathlib.Path, workers: int, environment: dict | None = None) -> tuple:
    """Status, standard output, standard error and what was written."""
    out.unlink(missing_ok=True)
    done = subprocess.run([program, "collect", image, str(out), "--workers", str(workers)], capture_output=True,
                          env=dict(os.environ, **(environment or {})), timeout=60)
    return done.returncode, done.stdout, owed(done.stderr), out.read_bytes() if out.exists() else None


def collect_from_pipe(program: str, text: bytes, room: pathlib.Path, workers: int) -> tuple:
    pipe = room / "pipe"
    pipe.unlink(missing_ok=True)
    os.mkfifo(pipe)

    def give() -> None:
        try:
            with open(pipe, "wb") as writer:
                writer.write(text)
        except BrokenPipeError:
            pass

    giver = threading.Thread(target=give)
    giver.start()
    answer = collect(program, str(pipe), room / "from_pipe", workers)
    giver.join()
    return answer


def compare(program: str, text: bytes, room: pathlib.Path, what: str, workers: list[int]) -> None:
    image = room / "image"
    image.write_bytes(text)
    for number in workers:
        from_file = collect(program, str(image), room / "from_file", number)
        expect(from_file == collect_from_pipe(program, text, room, number), f"{what}, {number} workers: {from_file[:3]}")


def fail_each_read(program: str, image: pathlib.Path, room: pathlib.Path, shim: pathlib.Path) -> None:
    right = collect(program, str(image), room / "right", 4)
    for number in range(1, 40):
        environment = {"FAILED": str(number), "POSITIONED": "1", "LD_PRELOAD": str(shim)}
        expect(collect(program, str(image), room / "out", 4, environment) == right, f"positioned read {number} fails")


class Called:
    """The program called in a folder, with a library that stands before its calls on files."""

    def __init__(self, program: str, room: pathlib.Path, source: str):
        self.program = program
        self.room = room
        self.library = room / f"{source}.so"
        subprocess.run(["cc", "-shared", "-fPIC", "-O2", "-o", self.library, PRELOAD / source], check=True)

    def answer(self, words: str, **names: object) -> tuple:
        """Status, standard output, standard error, and what is in the files that such a command makes."""
        made = [self.room / name for name in ("made", "schedule")]
        for file in made:
            file.unlink(missing_ok=True)
        environment = {**os.environ, **{name: str(it) for name, it in names.items()}, "LD_PRELOAD": str(self.library)}
        done = subprocess.run(["sh", "-c", 'exec "$0" "$@" 3>calls', self.program, *words.split()], cwd=self.room,
                              capture_output=True, env=environment, timeout=60)
        return done.returncode, done.stdout, owed(done.stderr), [file.read_bytes() if file.exists() else None for file in made]

    def calls(self) -> int:
        """How many calls the last answer took."""
        return int((self.room / "calls").read_text())


def is_beginning(made: bytes | None, right: bytes | None) -> bool:
    return made is None or right is not None and right.startswith(made)


def fail_each_call(program: str, room: pathlib.Path, what: str) -> None:
    """Each call on files fails in turn: all is right, or it is fault 13. Where all words were read before, seeking and
    looking where the file is at aren't needed."""
    called = Called(program, room, "fail_device.c")
    for words in COMMANDS:
        right = called.answer(words, FAILED=0)
        count = called.calls()
        expect(right[0] == 0 and count > 5, f"{words}, {what}: {right[:3]}, {count} calls")
        faults = elsewhere = 0
        for number in range(1, count + 1):
            found = called.answer(words, FAILED=number)
            is_fault = found[:3] == (1, b"", FAULT_13) and all(map(is_beginning, found[3], right[3]))
            # A schedule is written in pieces of which not all need be there, and by several workers in any order.
            is_fault = is_fault or "record" in words and found[:3] == (1, b"", FAULT_13) and is_beginning(found[3][0], right[3][0])
            # The line is on standard error where it can't be found out whether a file is standard output.
            is_right = found[:3] in (right[:3], (0, b"", right[1])) and found[3][0] == right[3][0]
            faults += is_fault
            elsewhere += found[:3] == (0, b"", right[1])
            expect(is_fault or is_right, f"{words}, {what}, call {number} of {count} fails: {found[:3]}")
        expect(faults > 3, f"{words}, {what}: {faults} calls are missed where they fail")
        expect(elsewhere <= 2 * len(right[3]), f"{words}, {what}: {elsewhere} calls that fail send the line to standard error")


def cut_at_each_call(program: str, room: pathlib.Path, what: str) -> None:
    """The image's file is cut before each call that reads it."""
    called = Called(program, room, "cut_file.c")
    image = room / "image"
    text = image.read_bytes()
    for words in ("collect image made --workers 1", "collect image made --workers 4", "verify image compacted"):
        right = called.answer(words, CUT=0)
        count = called.calls()
        for number in range(1, count + 1):
            for length in (0, 32, len(text) // 2, len(text) - 1):
                found = called.answer(words, CUT=number, FILE_TO_CUT=image, CUT_TO=length)
                is_short = found[:2] == (1, b"") and found[2] in CUT_SHORT and found[3][0] in (None, b"")
                expect(is_short or found == right, f"{words}, {what}, cut to {length} before call {number} of {count}: {found[:3]}")
                image.write_bytes(text)


def change_while_read(program: str, text: bytes, room: pathlib.Path) -> None:
    image = room / "changing"
    image.write_bytes(text)
    right = collect(program, str(image), room / "right", 4)
    stop = threading.Event()

    def change() -> None:
        while not stop.is_set():
            os.truncate(image, random.randrange(len(text)))
            image.write_bytes(text)

    changer = threading.Thread(target=change)
    changer.start()
    for _ in range(60):
        answer = collect(program, str(image), room / "out", 4)
        is_fault = answer[0] == 1 and answer[2].startswith(b"pcompact: fault ")
        expect(answer == right or is_fault, f"changed while it is read: {answer[:3]}")
    stop.set()
    changer.join()


def main() -> None:
    program = str((pathlib.Path(sys.argv[1]) if len(sys.argv) > 1 else built()).resolve())
    random.seed(1)
    with tempfile.TemporaryDirectory() as folder:
        room = pathlib.Path(folder)
        shim = room / "fail.so"
        subprocess.run(["cc", "-shared", "-fPIC", "-O2", "-o", shim, PRELOAD / "fail_device.c"], check=True)
        for version, logs in SHAPES.items():
            for log in logs:
                image = room / "generated"
                words = "131072" if log in ("3", "9") else "262144"
                subprocess.run([program, "generate", image, "--words", words, "--live", "60", "--region-log", log, "--seed", "7",
                                "--version", version], check=True, stdout=subprocess.DEVNULL)
                text = image.read_bytes()
                what = f"version {version}, region log {log}"
                compare(program, text, room, what, WORKERS)
                compare(program, text + b"x", room, f"{what}, a byte more", [1, 4])
                body = 32 + 8 * int(words)
                cuts = (32, 33, 4096, body - 1, body, body + 1, (body + len(text)) // 2, len(text) - 1, random.randrange(body))
                for length in cuts:
                    compare(program, text[:length], room, f"{what}, {length} bytes", [4])
                broken = bytearray(text)
                at = random.randrange(32, body)
                broken[at:at + 64] = random.randbytes(64)
                compare(program, bytes(broken), room, f"{what}, other bytes at {at}", [1, 4])
                if log == "9":
                    (room / "image").write_bytes(text)
                    subprocess.run([program, "collect", room / "image", room / "compacted", "--workers", "1"], check=True,
                                   stdout=subprocess.DEVNULL)
                    fail_each_call(program, room, what)
                    cut_at_each_call(program, room, what)
            fail_each_read(program, image, room, shim)
            change_while_read(program, text, room)
    print(f"{passed} passed, {failed} failed")
    sys.exit(failed > 0)


if __name__ == "__main__":
    main()
