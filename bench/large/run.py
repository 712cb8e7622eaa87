#!/usr/bin/env python3
"""How `pcompact` does with heaps of 32 MiB, 256 MiB, 1 GiB and 4 GiB.

Makes images of version 3 by `pcompact generate`, half live, and runs on each in turn: `pcompact collect` by one worker and by
as many as there are processors, the plain Rust program of `bench/end_to_end/plain` (one thread), `summary`, `verify`, `record`
and `replay`. Each run is a process of its own that writes a new file, and the order turns from round to round. Prints for each
size the median times, nanoseconds a word, and peak memory to the words of the heap; then the goals of docs/SPEED.md. `record`
and `replay` are left out above 1 GiB.

A heap of n MiB takes about 5 n of disk and 2.5 n of memory. All processes get huge pages from the C library, as the script
`pcompact` asks for them, unless the environment sets GLIBC_TUNABLES.

Ends with status 1 where two programs wrote different files, or where one failed.
"""
import argparse
import filecmp
import os
import pathlib
import statistics
import subprocess
import sys
import tempfile

here = pathlib.Path(__file__).resolve().parent
sys.dont_write_bytecode = True
sys.path.insert(0, str(here.parent))
from building import TUNABLES, built, plain_program

SMALL, LARGE = 32, 1024
HEAD = """
| MiB | command | ms | ns a word | peak memory to the words |
|---|---|---|---|---|"""

Rounds = list[dict[str, tuple[float, float]]]


class Heaps:
    """The programs, and the image of one size at a time."""

    def __init__(self, scratch: pathlib.Path, pcompact: pathlib.Path, workers: int):
        self.scratch = scratch
        self.pcompact = pcompact
        self.workers = workers
        self.plain = plain_program(scratch)
        self.image = scratch / "image"

    def out(self, job: str) -> pathlib.Path:
        return self.scratch / f"{job}.out"

    def generate(self, mib: int) -> None:
        words = ["--words", mib << 17, "--live", 50, "--region-log", 12, "--seed", 1, "--refs", 5, "--version", 3]
        subprocess.run([self.pcompact, "generate", self.image, *map(str, words)], check=True, stdout=subprocess.DEVNULL)

    def jobs(self, mib: int) -> dict[str, list]:
        """Of each thing that is measured its command, in an order in which each finds the files that it reads."""
        many = str(self.workers)
        jobs = {
            "plain": [self.plain, "collect", self.image, self.out("plain")],
            "collect 1": [self.pcompact, "collect", self.image, self.out("collect 1"), "--workers", "1"],
            f"collect {many}": [self.pcompact, "collect", self.image, self.out(f"collect {many}"), "--workers", many],
            "summary": [self.pcompact, "summary", self.image],
            "verify": [self.pcompact, "verify", self.image, self.out("collect 1")],
        }
        if mib <= LARGE:
            schedule = self.out("schedule")
            jobs["record"] = [self.pcompact, "record", self.image, self.out("record"), schedule, "--workers", many]
            jobs["replay"] = [self.pcompact, "replay", self.image, schedule]
        return jobs

    def run(self, job: str, command: list) -> tuple[float, float]:
        """The seconds of a run, and the most MiB that it had in memory."""
        self.out(job).unlink(missing_ok=True)
        # Else the system writes what an earlier run left while this one is measured.
        os.sync()
        done = subprocess.run([self.plain, "measure", *command], stdout=subprocess.DEVNULL, stderr=subprocess.PIPE, text=True)
        if done.returncode != 0:
            sys.exit(f"{job} failed: {done.stderr}")
        nanoseconds, peak_kib = map(int, done.stderr.splitlines()[-1].split())
        return nanoseconds / 1e9, peak_kib / 1024

    def compare(self, jobs: dict[str, list]) -> None:
        outs = [self.out(job) for job in jobs if job.startswith(("collect", "record"))]
        others = [out.name for out in outs if not filecmp.cmp(out, self.out("plain"), shallow=False)]
        if others:
            sys.exit(f"{', '.join(others)} and the plain program's differ; the files are in {self.scratch}")

    def measure(self, mib: int, count: int) -> Rounds:
        self.generate(mib)
        commands = self.jobs(mib)
        jobs = list(commands)
        rounds = []
        for k in range(count):
            # The first round makes the files that later jobs read.
            turned = jobs[k % len(jobs):] + jobs[:k % len(jobs)]
            kept = {job: self.run(job, commands[job]) for job in turned}
            self.compare(commands)
            rounds.append(kept)
        return rounds


def seconds(rounds: Rounds, job: str) -> float:
    return statistics.median(found[job][0] for found in rounds)


def peak(rounds: Rounds, job: str) -> float:
    return statistics.median(found[job][1] for found in rounds)


def ratio(rounds: Rounds, job: str, other: str) -> float:
    return statistics.median(found[job][0] / found[other][0] for found in rounds)


def row(mib: int, rounds: Rounds, job: str) -> str:
    taken = seconds(rounds, job)
    return f"| {mib} | {job} | {1e3 * taken:.0f} | {1e9 * taken / (mib << 17):.2f} | {peak(rounds, job) / mib:.2f} |"


def said(what: str, found: float, goal: float) -> str:
    return f"{what}: {found:.2f}, goal {goal}: {'kept' if found <= goal else 'missed'}"


def goals(measured: dict[int, Rounds], workers: int) -> list[str]:
    one, many = "collect 1", f"collect {workers}"
    lines = []
    if LARGE in measured:
        large = measured[LARGE]
        if SMALL in measured:
            for job in (one, many):
                growth = seconds(large, job) / seconds(measured[SMALL], job) * SMALL / LARGE
                lines.append(said(f"nanoseconds a word, 1 GiB to 32 MiB, {job}", growth, 1.3))
        lines += [
            said(f"{workers} workers to one, 1 GiB", ratio(large, many, one), 0.45),
            said("one worker to the plain program, 1 GiB", ratio(large, one, "plain"), 1.2),
            said("verify to collect by one worker, 1 GiB", ratio(large, "verify", one), 1.0),
            said("summary to collect by one worker, 1 GiB", ratio(large, "summary", one), 1.0),
            said(f"record to {many}, 1 GiB", ratio(large, "record", many), 2),
            said("replay to collect by one worker, 1 GiB", ratio(large, "replay", one), 4),
        ]
    lines += [said(f"peak memory to the words, {job}, {mib} MiB", peak(rounds, job) / mib, 1.2)
              for mib, rounds in measured.items() if mib > SMALL for job in (one, many)]
    return lines


def main() -> None:
    parser = argparse.ArgumentParser(description=__doc__, formatter_class=argparse.RawDescriptionHelpFormatter)
    parser.add_argument("--pcompact", type=pathlib.Path, help="the program (the one that the script pcompact builds)")
    parser.add_argument("--mib", type=int, nargs="+", default=[32, 256, 1024], help="sizes of heaps (32 256 1024)")
    parser.add_argument("--rounds", type=int, default=3, help="how often each program runs on an image (3)")
    parser.add_argument("--scratch", type=pathlib.Path, help="where to build (a folder among the temporary files)",
                        default=pathlib.Path(tempfile.gettempdir()) / "large-bench")
    asked = parser.parse_args()

    os.environ.setdefault("GLIBC_TUNABLES", TUNABLES)
    workers = max(2, len(os.sched_getaffinity(0)))
    asked.scratch.mkdir(parents=True, exist_ok=True)
    heaps = Heaps(asked.scratch, asked.pcompact or built(), workers)
    measured = {}
    print(HEAD)
    for mib in asked.mib:
        measured[mib] = heaps.measure(mib, asked.rounds)
        print("\n".join(row(mib, measured[mib], job) for job in heaps.jobs(mib)), flush=True)
    print("\nAll outputs of an image were equal byte for byte.\n")
    print("\n".join(goals(measured, workers)))


if __name__ == "__main__":
    main()
