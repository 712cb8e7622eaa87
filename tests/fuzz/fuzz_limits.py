"""Calls of fuzz.py under limits of memory, stack, files and descriptors, as `ulimit` sets them.

Each such call must answer as without limits, or by fault 11 or 13, whatever it can't get. No signal ends it, and with
`--atomic` what stood in OUT then stays."""
import dataclasses
import os
import random
import resource
import subprocess

from tests.support.program import Tried, owed

SECONDS = 10
KIB, MIB = 1 << 10, 1 << 20
FAULTS = (b"pcompact: fault 11 memory\n", b"pcompact: fault 13 input or output\n")
OLD = b"what stood there before" * 100
# As the launcher sets them.
TUNABLES = ("glibc.malloc.hugetlb=1:glibc.malloc.mmap_max=0:glibc.malloc.arena_max=1:glibc.malloc.tcache_count=0:"
            "glibc.malloc.top_pad=67108864")
COMMANDS = ("summary image", "order image", "text image", "map image --after --letters", "map image --svg out", "verify image base",
            "verify base image", "collect image out --workers {workers}", "record image out recorded --workers {workers}",
            "upgrade image out", "upgrade image out --to 3", "replay image {schedule}", "timeline image {schedule} --letters",
            "timeline image {schedule} --html out", "assemble lines out", "import dump out", "import dump out --live-only",
            "generate out --words 8192 --live 50 --region-log 5 --seed 3", "board", "collect image",
            "generate out --words 131072 --live 50 --region-log 17 --seed 3")


@dataclasses.dataclass(frozen=True)
class Limits:
    """How much a call has at most, in bytes, or of descriptors. None is no limit."""
    memory: int | None = None
    stack: int | None = None
    file: int | None = None
    descriptors: int | None = None

    def set(self) -> None:
        kinds = (resource.RLIMIT_AS, resource.RLIMIT_STACK, resource.RLIMIT_FSIZE, resource.RLIMIT_NOFILE)
        for kind, most in zip(kinds, dataclasses.astuple(self)):
            if most is not None:
                resource.setrlimit(kind, (most, most))


def drawn(chance: random.Random, least: int) -> Limits:
    """Limits of one kind or several, near those with which a program can just start."""
    memory = least + chance.choice([chance.randrange(64) * 4 * KIB, chance.randrange(256) * 32 * KIB, chance.randrange(64) * MIB])
    kinds = {"memory": memory, "stack": chance.choice([256 * KIB, 320 * KIB, 512 * KIB, MIB, 64 * MIB]),
             "file": chance.choice([0, 1, 31, 4096, chance.randrange(1 << 16)]), "descriptors": chance.randrange(4, 9)}
    some = chance.choice([["memory"], ["memory"], ["memory", "stack"], ["stack"], ["file"], ["descriptors"], list(kinds)])
    return Limits(**{kind: kinds[kind] for kind in some})


class Limited:
    """Calls of the program under limits."""

    def __init__(self, tried: Tried):
        self.tried = tried
        self.least = next(most for most in range(2 * MIB, 64 * MIB, 128 * KIB) if self.starts(most))

    def starts(self, most: int) -> bool:
        """Whether the system can load the program into so much memory, so that what then fails is the program."""
        try:
            return self.call("--version", Limits(memory=most), {})[0] == 0
        except OSError:
            return False

    def call(self, words: str, limits: Limits, environment: dict[str, str]) -> tuple:
        """Status, standard output, standard error and what is in OUT. Signals of a full file are ignored, as the launcher does."""
        done = subprocess.run([self.tried.program, *words.split()], cwd=self.tried.folder, stdin=subprocess.DEVNULL,
                              capture_output=True, timeout=SECONDS, preexec_fn=limits.set, restore_signals=False,
                              env={**os.environ, **environment})
        out = self.tried.folder / "out"
        return done.returncode, done.stdout, owed(done.stderr), out.read_bytes() if out.exists() else None

    def try_call(self, chance: random.Random) -> str:
        """Runs one command without limits and with some, and reports the results."""
        schedules = [name for name in ("made", "spoiled1", "schedule") if (self.tried.folder / name).exists()]
        words = chance.choice(COMMANDS).format(workers=chance.choice([0, 1, 2, 4, 64]), schedule=chance.choice(schedules or ["image"]))
        is_atomic = " out" in words and chance.randrange(2) == 1
        words += " --atomic" * is_atomic
        limits, environment = drawn(chance, self.least), chance.choice([{}, {"GLIBC_TUNABLES": TUNABLES}])
        before = chance.choice([None, OLD])
        answers = []
        for most in (Limits(), limits):
            self.put_out(before)
            try:
                answers.append(self.call(words, most, environment))
            except subprocess.TimeoutExpired:
                self.tried.is_wrong(f"pcompact {words}, {most}, {environment}: doesn't end within {SECONDS} seconds")
                return "hang"
        self.tried.count += 1
        right, found = answers
        is_fault = found[:2] == (1, b"") and found[2] in FAULTS and (not is_atomic or found[3] == before)
        if found != right and not is_fault:
            self.tried.is_wrong(f"pcompact {words}, {limits}, {environment}, OUT {'new' if before is None else 'old'}: "
                                f"{found[:3]} and not {right[:3]}, or OUT is another")
        return "right under limits" if found == right else "refused under limits"

    def put_out(self, content: bytes | None) -> None:
        out = self.tried.folder / "out"
        out.unlink(missing_ok=True)
        if content is not None:
            out.write_bytes(content)
