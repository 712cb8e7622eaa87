"""The crates of crates.txt: what each stands on, the checksum of all that its proof depends on, and which are proved as they
stand. Part of ./prove."""
import concurrent.futures
import dataclasses
import hashlib
import os
import pathlib
import shutil
import subprocess
from collections.abc import Callable, Iterable

TOP = pathlib.Path(__file__).resolve().parents[2]
KEPT = TOP / "out" / "pcompact"
PROGRAM = "pcompact"
# How many seconds of one processor a crate takes at least, what a line of code adds in a crate that stands on none, what each
# crate below adds to that, since its clauses are at hand in each goal, and what a line of a proof takes. They fit a run.
SECONDS_A_CRATE = 12
SECONDS_A_LINE = 0.06
SECONDS_A_LINE_FOR_EACH_BELOW = 0.0123
SECONDS_A_LINE_OF_PROOF = 0.003


@dataclasses.dataclass
class Crate:
    name: str
    # Its line of crates.txt.
    line: str
    # The crates of the repository that it uses.
    below: list[str]
    # These, those that they use, and so on.
    all_below: set[str]
    # How many seconds of one processor its proof takes, guessed by its size.
    seconds: int
    # The checksum of all that its proof depends on, but for the crates below.
    sum: str

    @property
    def folder(self) -> pathlib.Path:
        return TOP / "crates" / self.name

    @property
    def call(self) -> list[str]:
        """The words of build_crate.py that prove and build it, and with which its program is run."""
        if self.name == PROGRAM:
            return ["run", "--", "--version"]
        return ["test" if self.name.endswith("_tests") else "lib"]

    @property
    def is_library(self) -> bool:
        """Whether crates can stand on it."""
        return self.call == ["lib"] and not self.is_static

    @property
    def is_static(self) -> bool:
        """Whether it is a static library, on which no crate stands."""
        return "staticlib" in self.line.partition(":")[0].split()

    @property
    def made(self) -> pathlib.Path:
        """What they leave where all is well."""
        library = f"lib{self.name}.a" if self.is_static else "rlib/stamp"
        made = {"run": self.name, "test": f"{self.name}_tests", "lib": library}
        return self.folder / "out" / made[self.call[0]]

    @property
    def packed(self) -> pathlib.Path:
        """Its library, a tenth as large."""
        return self.folder / "out" / "rlib.tar.gz"

    def pack(self) -> None:
        """Leaves the library packed alone. One that `--keep` has kept stays as it is."""
        out = self.folder / "out"
        if not self.is_library or not self.made.exists() or (out / "incremental").exists():
            return
        if not self.packed.exists():
            new = out / "rlib.new"
            subprocess.run(["tar", "-C", out, "-I", "gzip -1", "-cf", new, "rlib"], check=True)
            new.replace(self.packed)
        gone = out / "rlib.gone"
        shutil.rmtree(gone, ignore_errors=True)
        (out / "rlib").rename(gone)
        shutil.rmtree(gone)

    def unpack(self) -> None:
        """Gives back a library that is packed alone."""
        out = self.folder / "out"
        if self.made.exists() or not self.packed.exists():
            return
        new = out / "unpacked"
        shutil.rmtree(new, ignore_errors=True)
        new.mkdir()
        subprocess.run(["tar", "-C", new, "-xzf", self.packed], check=True)
        shutil.rmtree(out / "rlib", ignore_errors=True)
        (new / "rlib").rename(out / "rlib")
        new.rmdir()


def files_of(folder: pathlib.Path) -> list[pathlib.Path]:
    found = [path for part in ("src", "specs", "proofs") for path in (folder / part).rglob("*")]
    return sorted(path for path in found if path.suffix in (".rt", ".antt"))


def read_crate(line: str, found: dict[str, Crate], common: bytes) -> Crate:
    """The crate of a line of crates.txt. Those that it uses are found already."""
    head, _, uses = line.partition(":")
    name = head.split()[0]
    below = [word for word in uses.split() if word in found]
    all_below = set(below).union(*(found[it].all_below for it in below))
    a_line = {".rt": SECONDS_A_LINE + SECONDS_A_LINE_FOR_EACH_BELOW * len(all_below), ".antt": SECONDS_A_LINE_OF_PROOF}
    total, seconds = hashlib.sha256(common + line.encode()), float(SECONDS_A_CRATE)
    for path in files_of(TOP / "crates" / name):
        text = path.read_bytes()
        total.update(f"{path.relative_to(TOP)} {len(text)}\n".encode() + text)
        seconds += text.count(b"\n") * a_line[path.suffix]
    return Crate(name, line, below, all_below, int(seconds), total.hexdigest())


def read_crates(kit: str) -> dict[str, Crate]:
    """The crates of crates.txt, each after those that it uses."""
    lines = [line.partition("#")[0].strip() for line in (TOP / "crates.txt").read_text().splitlines()]
    line_of = {line.split(":")[0].split()[0]: line for line in lines if line}
    common = f"{kit}\n".encode() + (TOP / "HANDLES").read_bytes()
    found: dict[str, Crate] = {}

    def add(name: str) -> None:
        if name in found:
            return
        for it in line_of[name].partition(":")[2].split():
            if it in line_of:
                add(it)
        found[name] = read_crate(line_of[name], found, common)

    for name in line_of:
        add(name)
    return found


def below(crates: dict[str, Crate], names: list[str]) -> list[str]:
    """These crates and all that they stand on, the lowest first."""
    wanted = set(names)
    for crate in reversed(crates.values()):
        if crate.name in wanted:
            wanted.update(crate.below)
    return [name for name in crates if name in wanted]


def above(crates: dict[str, Crate], names: list[str]) -> list[str]:
    """These crates and all that stand on them, the lowest first."""
    wanted = set(names)
    for crate in crates.values():
        if wanted & set(crate.below):
            wanted.add(crate.name)
    return [name for name in crates if name in wanted]


class Proved:
    """The crates that are proved as they stand, each with the checksum of what was proved."""

    def __init__(self, crates: dict[str, Crate]):
        self.file = KEPT / "proved"
        lines = self.file.read_text().splitlines() if self.file.exists() else []
        self.sums = dict(line.split() for line in lines)
        for crate in crates.values():
            is_kept = self.sums.get(crate.name) == crate.sum and (crate.made.exists() or crate.packed.exists())
            if not is_kept or any(name not in self.sums for name in crate.below):
                self.sums.pop(crate.name, None)

    def __contains__(self, name: str) -> bool:
        return name in self.sums

    def add(self, crate: Crate) -> None:
        self.sums[crate.name] = crate.sum
        new = self.file.with_suffix(".new")
        new.write_text("".join(f"{name} {it}\n" for name, it in self.sums.items()))
        new.replace(self.file)


def side_by_side(act: Callable[[Crate], None], crates: Iterable[Crate]) -> None:
    """Does this to each of the crates, as many at once as there are processors."""
    with concurrent.futures.ThreadPoolExecutor(len(os.sched_getaffinity(0))) as room:
        for done in [room.submit(act, crate) for crate in crates]:
            done.result()
