#!/usr/bin/env python3
"""Runs `compare` over heap dumps that real machines made before and after a collection, by several collectors: what it prints is
what a plain model says. Compares the histogram of `import --weak` with a machine's own. Skipped where there is no JDK.

usage: tests/cli/test_machines.py [--orders N] [PROGRAM]
  --orders N   a service of so many orders, of some nine objects each, in place of 2000, and only what the program says: with
               150000, the table of docs/COLLECTORS.md
"""
import argparse
import pathlib
import shutil
import subprocess
import sys
import tempfile

# Finds the package `tests` from any folder, and writes nothing beside its modules.
sys.dont_write_bytecode = True
sys.path.insert(0, str(pathlib.Path(__file__).resolve().parents[2]))
from tests.models.pairs import Comparison
from tests.support.program import TOP, Answer, Tried, built

SERVICE = TOP / "tests" / "support" / "Service.java"
WEAK = TOP / "tests" / "support" / "Weak.java"
# Its classes, and what it has most of.
WEAK_CLASSES = ("Weak$Held", "Weak$Softly", "Weak$Phantom", "java.lang.ref.WeakReference", "java.lang.ref.PhantomReference",
                "java.util.WeakHashMap$Entry", "java.lang.Integer")
TOOLS = ("java", "javac", "jcmd")
# The words that choose a collector, and the verdict of heaps that are large.
COLLECTORS = {
    "ParallelGC": ["-XX:+UseParallelGC"],
    "ParallelGC without scavenge": ["-XX:+UseParallelGC", "-XX:-ScavengeBeforeFullGC"],
    "ParallelGC without scavenge and maximum compaction": ["-XX:+UseParallelGC", "-XX:-ScavengeBeforeFullGC", "-XX:-UseMaximumCompactionOnSystemGC"],
    "SerialGC": ["-XX:+UseSerialGC"],
    "G1": ["-XX:+UseG1GC"],
}
# Those that must slide.
SLIDING = ("ParallelGC without scavenge", "SerialGC")


class Machine:
    """A running service, as a context."""

    def __init__(self, folder: pathlib.Path, words: list[str], orders: int, name: str = "Service"):
        memory = "1g" if orders > 10_000 else "128m"
        command = ["java", f"-Xms{memory}", f"-Xmx{memory}", *words, "-cp", folder, name, str(orders)]
        self.process = subprocess.Popen(command, stdout=subprocess.PIPE, text=True)

    def __enter__(self) -> "Machine":
        return self

    def __exit__(self, *_) -> None:
        self.process.kill()
        self.process.communicate()

    def is_at_rest(self) -> bool:
        return self.process.stdout.readline() == "at rest\n"

    def order(self, *words: str | pathlib.Path) -> bool:
        """Whether the machine did this within two minutes."""
        command = ["jcmd", str(self.process.pid), *words]
        try:
            return subprocess.run(command, check=False, stdout=subprocess.DEVNULL, timeout=120).returncode == 0
        except subprocess.TimeoutExpired:
            return False


    def histogram(self, *words: str) -> dict[str, tuple[int, int]]:
        """The objects and the bytes of each class, of live objects alone without `-all`."""
        command = ["jcmd", str(self.process.pid), "GC.class_histogram", *words]
        done = subprocess.run(command, check=False, capture_output=True, text=True, timeout=120)
        rows = (line.split() for line in done.stdout.splitlines() if ":" in line.split(" (")[0])
        return {row[3]: (int(row[1]), int(row[2])) for row in rows if len(row) > 3 and row[1].isdigit()}


def try_weak(tried: Tried) -> bool:
    """Objects that only references reach which a collector doesn't follow: what `--weak` counts as live is what a machine keeps, and
    machine bytes are those that it counts. Whether a machine could be had."""
    with Machine(tried.folder, ["-XX:+UseParallelGC"], 0, "Weak") as machine:
        if not machine.is_at_rest():
            return False
        whole = machine.histogram("-all")
        dumped = machine.order("GC.heap_dump", "-all", tried.folder / "weak")
        kept = machine.histogram()
    if not (dumped and whole and kept):
        return False
    done = subprocess.run([tried.program, "import", "weak", "image", "--weak", "--histogram", "100000"], cwd=tried.folder, check=False,
                          capture_output=True, text=True)
    rows = {row[6]: [int(field) for field in row[1:6]] for row in map(str.split, done.stdout.splitlines()) if len(row) == 7}
    for name in WEAK_CLASSES:
        live, _, dead, _, machine_bytes = rows.get(name, [0] * 5)
        tried.count += 1
        if (live, live + dead, machine_bytes) != (kept.get(name, (0, 0))[0], *whole.get(name, (0, 0))):
            tried.is_wrong(f"import --weak, {name}: {rows.get(name)}, where the machine has {whole.get(name)}, and keeps {kept.get(name)}")
    return True


def dump_twice(folder: pathlib.Path, words: list[str], orders: int) -> bool:
    """Has a machine write `before` and `after`. Whether it did."""
    with Machine(folder, words, orders) as machine:
        return (machine.is_at_rest() and machine.order("GC.heap_dump", "-all", folder / "before") and machine.order("GC.run")
                and machine.order("GC.heap_dump", "-all", folder / "after"))


def try_collector(tried: Tried, name: str, words: list[str], orders: int) -> bool:
    """Whether a machine could be had."""
    for file in ("before", "after"):
        (tried.folder / file).unlink(missing_ok=True)
    if not dump_twice(tried.folder, words, orders):
        print(f"skipped: no machine with {name} can be asked for dumps")
        return False
    wanted = Comparison(tried.read("before"), tried.read("after"))
    tried.run("compare before after", Answer(wanted.status(), wanted.text()))
    tried.run("compare --json before after", Answer(wanted.status(), wanted.as_json()))
    if name in SLIDING and wanted.verdict() != "slid":
        tried.is_wrong(f"{name}: {wanted.text()}")
    return True


def show(program: pathlib.Path, folder: pathlib.Path, name: str, words: list[str], orders: int) -> None:
    for file in ("before", "after"):
        (folder / file).unlink(missing_ok=True)
    print(f"== {name}", flush=True)
    if dump_twice(folder, words, orders):
        subprocess.run([program, "compare", folder / "before", folder / "after"], check=False)


def main() -> int:
    parser = argparse.ArgumentParser(description=__doc__, formatter_class=argparse.RawDescriptionHelpFormatter)
    parser.add_argument("--orders", type=int)
    parser.add_argument("program", nargs="?", type=pathlib.Path, default=None)
    given = parser.parse_args()
    program = given.program or built()
    if not all(map(shutil.which, TOOLS)):
        print("there is no JDK\n0 passed, 0 failed, 1 skipped")
        return 0
    with tempfile.TemporaryDirectory() as room:
        folder = pathlib.Path(room)
        subprocess.run(["javac", "-d", folder, SERVICE], check=True)
        if given.orders:
            for name, words in COLLECTORS.items():
                show(program, folder, name, words, given.orders)
            return 0
        tried = Tried(program, folder)
        skipped = sum(not try_collector(tried, name, words, 2000) for name, words in COLLECTORS.items())
        subprocess.run(["javac", "-d", folder, WEAK], check=True)
        skipped += not try_weak(tried)
    left_out = f", {skipped} skipped" if skipped else ""
    print(f"{tried.count - tried.wrong} passed, {tried.wrong} failed{left_out}")
    return min(tried.wrong, 1)


if __name__ == "__main__":
    sys.exit(main())
