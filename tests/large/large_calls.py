"""Calls of the built program on large files: what they answer and take, and what they leave where they are killed or have too
little room or memory."""
import collections
import contextlib
import dataclasses
import filecmp
import os
import pathlib
import random
import re
import resource
import shutil
import subprocess
import tempfile
import time
from collections.abc import Iterator

from tests.support.measured import Taken, measured
from tests.support.program import Tried, launcher, owed

MIB = 1 << 20
# A call that takes longer hangs, at 4 GiB too.
SECONDS = 1200
OLD = b"what stood there before" * 40
NEW = ".pcompact-*"
# What a call may have in memory besides a multiple of its image.
BESIDE = 64 * MIB
# Too little memory for any large file, in which the program starts.
LITTLE = 64 * MIB
KILLS = 5
STEPS = 10
# The most bytes of a disk that fills up, as it is in memory.
DISK = 256 * MIB


def fitting_mib(mib: int, times: int) -> int:
    """The size in MiB to try with: the one given, or half of it and so on, down to 16, until the disk of temporary files has
    `times` as much free."""
    free = shutil.disk_usage(tempfile.gettempdir()).free // MIB
    fitting = mib
    while fitting > 16 and fitting * times > free:
        fitting //= 2
    if fitting < mib:
        print(f"the disk has {free} MiB left, so this tries {fitting} MiB in place of {mib}", flush=True)
    return fitting


@dataclasses.dataclass(frozen=True)
class Call:
    """A command that writes the file `out`, the file with the right bytes, and what it took without --atomic."""
    words: str
    right: str
    taken: Taken

    def enough(self) -> int:
        """Enough memory for it, with what threads reserve."""
        return self.taken.memory * 11 // 10 + 192 * MIB


@dataclasses.dataclass(frozen=True)
class End:
    """How a call with --atomic over a file with other bytes ended: whether these are there, the right ones or neither, and how many
    new files are left beside it."""
    status: int
    err: bytes
    bytes: str
    left: int


WELL = End(0, b"", "right", 0)
NO_MEMORY = End(1, b"pcompact: fault 11 memory\n", "old", 0)
NO_ROOM = End(1, b"pcompact: fault 13 input or output\n", "old", 0)


class LargeCalls:
    """The program in a folder, as the launcher runs it."""

    def __init__(self, tried: Tried):
        self.tried = tried
        self.here = tried.folder
        self.command = [*launcher(), str(tried.program)]
        self.skipped = 0
        # What the last call of `run` took.
        self.last: Taken | None = None

    def expect(self, is_right: bool, what: str) -> None:
        self.tried.count += 1
        if not is_right:
            self.tried.is_wrong(what)

    def size(self, name: str) -> int:
        return (self.here / name).stat().st_size

    def are_same(self, one: str, other: str) -> bool:
        return filecmp.cmp(self.here / one, self.here / other, shallow=False)

    def read_start(self, name: str) -> bytes:
        """The first bytes of an image, which name its version."""
        with open(self.here / name, "rb") as file:
            return file.read(8)

    def has_room(self, most: float, what: str) -> bool:
        """Whether this number of bytes of memory is free. What would need more is left out."""
        free = int(re.search(r"MemAvailable: *(\d+) kB", pathlib.Path("/proc/meminfo").read_text())[1]) << 10
        if most > free:
            self.skipped += 1
            print(f"{what} may need {most / MIB:.0f} MiB of memory, where {free // MIB} are free, and is left out")
        return most <= free

    def told(self) -> int:
        """Tells how much was right. The status to end with."""
        count, wrong = self.tried.count, self.tried.wrong
        print(f"{max(count - wrong, 0)} passed, {wrong} failed" + f", {self.skipped} skipped" * (self.skipped > 0))
        return 1 if wrong else 0

    def run(self, words: str, most: float, said: str = "said") -> str:
        """Runs a command that must end well, in so many bytes of memory at most, and tells what it took. What it prints goes to
        a file, and is answered where that is a regular one."""
        with open(self.here / said, "wb") as out, open(self.here / f"{said}.err", "wb") as err:
            taken = measured([*self.command, *words.split()], SECONDS, cwd=self.here, stdin=subprocess.DEVNULL, stdout=out, stderr=err)
        self.last = taken
        print(f"pcompact {words}: {taken.seconds:.2f} s, {taken.memory / MIB:.0f} MiB of memory", flush=True)
        told = self.tried.read(f"{said}.err")
        self.expect((taken.status, told) == (0, b""), f"pcompact {words}: status {taken.status}, {told[:200]!r}")
        self.expect(taken.memory <= most, f"pcompact {words}: {taken.memory} bytes of memory, where {most:.0f} are the most")
        return self.tried.read(said).decode() if (self.here / said).is_file() else ""

    def try_troubles(self, call: Call, chance: random.Random) -> None:
        """The call killed, and with too little room or memory."""
        self.try_killed(call, chance)
        self.try_little_memory(call)
        self.try_full_disk(call)

    def started(self, call: Call, out: pathlib.Path, **how) -> subprocess.Popen:
        """The call with --atomic, over a file with other bytes."""
        out.write_bytes(OLD)
        words = call.words.replace(" out", f" {out}").split()
        return subprocess.Popen([*self.command, *words, "--atomic"], cwd=self.here, stdin=subprocess.DEVNULL,
                                stdout=subprocess.PIPE, stderr=subprocess.PIPE, **how)

    def end_of(self, call: Call, running: subprocess.Popen, out: pathlib.Path) -> End:
        """Waits for a call that was started."""
        _, err = running.communicate(timeout=SECONDS)
        is_old = out.stat().st_size == len(OLD) and out.read_bytes() == OLD
        is_right = not is_old and filecmp.cmp(out, self.here / call.right, shallow=False)
        return End(running.returncode, owed(err), "old" if is_old else "right" if is_right else "neither", len(list(out.parent.glob(NEW))))

    def limited(self, call: Call, kind: int, most: int) -> End:
        out = self.here / "out"
        return self.end_of(call, self.started(call, out, preexec_fn=lambda: resource.setrlimit(kind, (most, most))), out)

    def try_killed(self, call: Call, chance: random.Random) -> None:
        """Killed at any moment, the old file or the right one is there, whole, and beside it one new file at most. The last of these
        is for the next call to remove."""
        out, ends = self.here / "out", collections.Counter()
        for kill in range(KILLS):
            for left in self.here.glob(NEW):
                left.unlink()
            running = self.started(call, out)
            time.sleep(1.5 * (kill + chance.random()) / KILLS * call.taken.seconds)
            running.kill()
            end = self.end_of(call, running, out)
            ends[f"{end.bytes} bytes and {end.left} new files"] += 1
            self.expect(end.bytes != "neither" and end.left <= 1, f"pcompact {call.words}, killed: {end}")
        print(f"pcompact {call.words}, killed, leaves {', '.join(f'{end}: {count}' for end, count in ends.items())}", flush=True)

    def try_little_memory(self, call: Call) -> None:
        """In steps from enough memory to too little: all is right, what a kill left is gone, or it is refused."""
        ends = []
        for step in reversed(range(STEPS)):
            most = LITTLE + (call.enough() - LITTLE) * step // (STEPS - 1)
            ends.append(self.limited(call, resource.RLIMIT_AS, most))
            wanted = {0: (NO_MEMORY,), STEPS - 1: (WELL,)}.get(step, (NO_MEMORY, WELL))
            self.expect(ends[-1] in wanted, f"pcompact {call.words} in {most} bytes of memory: {ends[-1]}")
        print(f"pcompact {call.words}, in {LITTLE // MIB} to {call.enough() // MIB} MiB of memory: "
              f"{ends.count(WELL)} of {STEPS} end well", flush=True)

    def try_full_disk(self, call: Call) -> None:
        """There is room for a part of the bytes: on a small disk, or where nobody may mount one, in any file."""
        room = min(self.size(call.right) // 3, DISK)
        with small_disk(self.here, room) as disk:
            if disk is None:
                end = self.limited(call, resource.RLIMIT_FSIZE, room)
            else:
                end = self.end_of(call, self.started(call, disk / "out"), disk / "out")
        self.expect(end == NO_ROOM, f"pcompact {call.words}, {room} bytes of room{' in a file' if disk is None else ''}: {end}")


@contextlib.contextmanager
def small_disk(folder: pathlib.Path, size: int) -> Iterator[pathlib.Path | None]:
    """A folder on a disk of so many bytes, which is in memory and goes with the process that mounted it for itself; None where
    the system doesn't allow that."""
    disk = folder / "disk"
    disk.mkdir(exist_ok=True)
    script = 'mount -t tmpfs -o size="$1",mode=755 tmpfs "$2" && echo mounted && read _'
    words = ["unshare", "--mount", *([] if os.geteuid() == 0 else ["--map-root-user"]), "sh", "-c", script, "sh", str(size), str(disk)]
    if not shutil.which("unshare"):
        yield None
        return
    with subprocess.Popen(words, stdin=subprocess.PIPE, stdout=subprocess.PIPE, stderr=subprocess.DEVNULL) as holder:
        is_there = holder.stdout.readline() == b"mounted\n"
        yield pathlib.Path("/proc", str(holder.pid), "root", *disk.resolve().parts[1:]) if is_there else None
