"""Proves crates beside each other, each in a copy of the sources, and says how far it is. Part of ./prove."""
import fcntl
import os
import pathlib
import re
import shutil
import signal
import subprocess
import sys
import time
import typing

from tests.build.crate_graph import KEPT, TOP, Crate, Proved, below, side_by_side

LOG = KEPT / "build.log"
# Where crates are proved beside each other.
BESIDE = KEPT / "beside"
# Proves and builds a crate.
BUILD_CRATE = TOP / "tests" / "build" / "build_crate.py"
# A crate with nearly as long a way before it as the first, this share of it, gives way to none.
NEARLY = 0.8
# A crate that may end this many seconds later can wait.
SLACK = 250
# What one job of a check needs.
BYTES_A_JOB = 2 << 30


def say(text: str) -> None:
    print(f"prove: {text}", flush=True)


def stop(status: int, text: str) -> typing.NoReturn:
    print(f"prove: {text}", file=sys.stderr)
    sys.exit(status)


def move(old: pathlib.Path, new: pathlib.Path) -> None:
    if old.is_dir():
        shutil.rmtree(new, ignore_errors=True)
        old.rename(new)


class Check:
    """The proof of a crate in a copy of the sources. rt keeps others out of the crate that it works on and out of those below."""

    def __init__(self, crate: Crate, crates: dict[str, Crate], jobs: int, keep: bool):
        self.crate = crate
        self.room = BESIDE / crate.name
        self.lock = os.open(crate.folder, os.O_RDONLY)
        fcntl.flock(self.lock, fcntl.LOCK_EX)
        self.keeps = keep or (crate.folder / "out" / "incremental").exists()
        self.copy_sources(crates)
        verb, *given = crate.call
        if crate.is_library and not self.keeps:
            verb = "statements"
        words = [sys.executable, BUILD_CRATE, str(jobs), verb, *given]
        with open(self.room / "log", "wb") as log:
            self.process = subprocess.Popen(words, cwd=self.copy, stdin=subprocess.DEVNULL, stdout=log, stderr=log,
                                            start_new_session=True)
        self.gives_way = False
        # The seconds of all its processors, once it has ended.
        self.taken = 0.0

    def has_ended(self) -> bool:
        number, status, taken = os.wait4(self.process.pid, os.WNOHANG)
        if number:
            self.process.returncode = os.waitstatus_to_exitcode(status)
            self.taken = taken.ru_utime + taken.ru_stime
        return number > 0

    def give_way(self, gives_way: bool) -> None:
        """Lets other checks go first on the processors, or no longer. A system without groups of sessions is left alone."""
        if gives_way == self.gives_way:
            return
        self.gives_way = gives_way
        try:
            pathlib.Path(f"/proc/{self.process.pid}/autogroup").write_text("10" if gives_way else "0")
        except OSError:
            pass

    @property
    def copy(self) -> pathlib.Path:
        return self.room / "crates" / self.crate.name

    def copy_sources(self, crates: dict[str, Crate]) -> None:
        self.room.mkdir()
        for name in ("crates.txt", "HANDLES"):
            shutil.copy(TOP / name, self.room)
        shutil.copytree(TOP / "crates", self.room / "crates", ignore=shutil.ignore_patterns("out"))
        for name in below(crates, [self.crate.name])[:-1]:
            built = self.room / "crates" / name / "out" / "rlib"
            shutil.copytree(crates[name].folder / "out" / "rlib", built, copy_function=os.link)
        move(self.crate.folder / "out", self.copy / "out")

    def end(self) -> bool:
        """Takes back what was made, once rt has ended. Whether the crate is proved."""
        if not self.keeps:
            shutil.rmtree(self.copy / "out" / "incremental", ignore_errors=True)
        move(self.copy / "out", self.crate.folder / "out")
        shutil.rmtree(self.room / "crates")
        is_proved = self.process.returncode == 0
        if is_proved:
            self.crate.packed.unlink(missing_ok=True)
        os.close(self.lock)
        with open(LOG, "ab") as log:
            log.write((self.room / "log").read_bytes())
        return is_proved

    def kill(self) -> None:
        try:
            os.killpg(self.process.pid, signal.SIGTERM)
        except ProcessLookupError:
            pass
        self.process.wait()


def ways_up(crates: dict[str, Crate], names: list[str]) -> dict[str, int]:
    """Of each crate the seconds of the longest way from it up to the last crate."""
    way: dict[str, int] = {}
    for name in reversed(names):
        ways = [way[it] for it in way if name in crates[it].below]
        way[name] = crates[name].seconds + max(ways, default=0)
    return way


def ways_before(crates: dict[str, Crate], names: list[str]) -> dict[str, int]:
    """Of each crate the seconds of the longest way from the lowest crate up to it, without its own."""
    before: dict[str, int] = {}
    for name in names:
        ways = [before[it] + crates[it].seconds for it in crates[name].below if it in before]
        before[name] = max(ways, default=0)
    return before


class Work:
    """The crates that are to be proved, those at work, and how far all is."""

    def __init__(self, crates: dict[str, Crate], names: list[str], keep: bool):
        self.crates = crates
        self.proved = Proved(crates)
        self.names = [name for name in names if name not in self.proved]
        self.keep = keep
        self.jobs = fitting_jobs()
        self.began = time.monotonic()
        self.running: list[Check] = []
        # The seconds of processors that the crates took which are proved.
        self.taken = 0.0
        self.seconds = sum(crates[name].seconds for name in self.names)
        self.way = ways_up(crates, self.names)
        self.before = ways_before(crates, self.names)

    def left(self) -> list[str]:
        """The crates that aren't proved yet, those first that have the longest way before them."""
        return sorted((name for name in self.names if name not in self.proved), key=lambda name: -self.way[name])

    def start_ready(self) -> None:
        """Starts crates of which all below are proved, those first that have the longest way before them."""
        at_work = [check.crate.name for check in self.running]
        left = self.left()
        ready = [name for name in left if name not in at_work and all(it in self.proved for it in self.crates[name].below)]
        others = len(at_work) + len(ready) - 1
        for name in ready[:max(0, self.jobs - len(self.running))]:
            self.say_next(name)
            self.running.append(Check(self.crates[name], self.crates, min(self.jobs_of(name, others), fitting_jobs()), self.keep))
        for check in self.running:
            check.give_way(self.way[check.crate.name] < NEARLY * self.way[left[0]])

    def jobs_of(self, name: str, others: int) -> int:
        """How many jobs a check has while this number of other crates is ready or at work. Each job loads the libraries below for
        itself, so a crate that can wait has one."""
        if others <= 1:
            return self.jobs
        return 1 if self.can_wait(name) else (self.jobs + 1) // 2

    def can_wait(self, name: str) -> bool:
        """Whether a crate may end much later than it can, and the last crate no later for that."""
        return self.before[name] + self.way[name] + SLACK < max(self.way.values())

    def say_next(self, name: str) -> None:
        done = sum(self.crates[it].seconds for it in self.names if it in self.proved)
        seconds = (time.monotonic() - self.began) * (self.seconds - done) / done if done else 0
        left = f", about {int(seconds / 60) + 1} minutes left" if done else ""
        say(f"proving {name} ({done * 100 // self.seconds} % are done{left})")

    def end_checks(self) -> None:
        """Takes what has ended from those at work."""
        ended = [check for check in self.running if check.has_ended()]
        self.running = [check for check in self.running if check not in ended]
        for check in ended:
            if not check.end():
                stop(1, f"the crate {check.crate.name} is not proved: {LOG.relative_to(TOP)} says why")
            self.proved.add(check.crate)
            self.taken += check.taken
            say(f"{check.crate.name} is proved, in {check.taken:.0f} seconds of processors")

    def run(self) -> None:
        if not self.names:
            return
        side_by_side(Crate.unpack, (crate for name, crate in self.crates.items() if name in self.proved))
        minutes = self.seconds // 60 // self.jobs + 2
        say(f"{len(self.names)} crates are to be proved: about {minutes} minutes")
        try:
            while self.left():
                self.start_ready()
                time.sleep(0.2)
                self.end_checks()
        finally:
            for check in self.running:
                check.kill()
                check.end()
        minutes = (time.monotonic() - self.began) / 60
        say(f"that took {minutes:.1f} minutes, and {self.taken / 60:.1f} of processors")


def fitting_jobs() -> int:
    """One job for each processor, as far as the free memory allows."""
    free = re.search(r"MemAvailable:\s*(\d+)", pathlib.Path("/proc/meminfo").read_text())
    return max(1, min(len(os.sched_getaffinity(0)), int(free[1]) * 1024 // BYTES_A_JOB))


def clear_beside() -> None:
    """Takes back what a call that was killed had in its copies."""
    for kept in BESIDE.glob("*/crates/*/out/incremental"):
        crate = TOP / "crates" / kept.parent.parent.name
        if crate.is_dir() and not (crate / "out").exists():
            move(kept.parent, crate / "out")
    shutil.rmtree(BESIDE, ignore_errors=True)
    BESIDE.mkdir()


def prove_all(crates: dict[str, Crate], names: list[str], keep: bool) -> None:
    """Proves those of the crates that have these names, the lowest first, and leaves in the log what rt says of them."""
    LOG.write_bytes(b"")
    clear_beside()
    try:
        Work(crates, names, keep).run()
    finally:
        shutil.rmtree(BESIDE)
