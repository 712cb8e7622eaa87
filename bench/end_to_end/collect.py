#!/usr/bin/env python3
"""How long `pcompact collect` takes, beside a plain Rust program that does the same job without proofs.

Builds the program in `plain/` by `rustc`, makes images by `pcompact generate`, and by the plain program those
that it doesn't make (lists, arrays, heaps that are nearly all live or dead, roots in random order), and runs on each in
turn: `pcompact collect` with 1, 2 and 4 workers, the plain program (LISP2 with mark bits and block counts, one thread),
and a copy of the image file.
Each run is a process of its own that writes a new file, and the order turns from round to round. Prints for each image
the median times and the median of the rounds' ratios, with the peak memory, and at the end the goals of
docs/SPEED.md, over the images of 32 MiB. The last four images have long runs, and no goal: two are all
live but for some words at the front, of many objects and of one; two are all dense prefix, one of an array and many
objects, and one dead but for an object at its end. All processes get huge pages from the C library as the script
`pcompact` asks for them, unless the environment sets GLIBC_TUNABLES.

With `--version 2` it compares both versions of heaps of 32 MiB instead: half live with few and many references; one
linked list of a million objects in random order; one array that refers to every object. The roots of version 2 lead to
just the live objects, and stand in random order. Both versions are collected with one worker, and by the plain program.

With `--phases` it tells how long each phase takes instead, on one core with one worker and on all with as many, beside
the plain program on the same cores: of heaps of 32 MiB, half live, the least of the rounds in milliseconds. Both tell
their phases by the clock, ours by `phases/phases.rt.txt`, which calls the library as `pcompact collect` does: `read`
ends and `check` begins with the last bytes before the end; `marks` and `plan` are of runs of their own; `cells` is
what else comes before the first fill; `fills` end with the last completion. The plain program marks the words of live
objects while it checks them.

With `--memory` it tells how long the collection takes alone, in memory and without files, as a runtime would feel it: of
heaps of 32 MiB, half live, by 1, 2 and 4 workers of the library (`in_memory/in_memory.rt.txt`) beside the plain program's
marks, plan, fills and clean-up. Each process reads the image once, and collects a fresh copy of it 5 times; the order turns
from round to round. Prints the least and the median of all times, the live MiB of the heap a second by the median, and the
median of the rounds' ratios.

Ends with status 1 where two programs wrote different files or printed different lines, or where one failed.
"""
import argparse
import dataclasses
import filecmp
import itertools
import os
import pathlib
import shutil
import statistics
import subprocess
import sys
import tempfile

here = pathlib.Path(__file__).resolve().parent
sys.dont_write_bytecode = True
sys.path.insert(0, str(here.parent))
from building import TUNABLES, built, plain_program, proved

WORKERS = (1, 2, 4)
# How many of a hundred words behind the headers are references.
REFERENCES = {"few": 5, "many": 70}
# How often a process collects a fresh copy of an image in memory.
COPIES = 5
PHASES = ("read", "check", "marks", "plan", "cells", "fills", "clean-up", "write")


@dataclasses.dataclass(frozen=True)
class Case:
    mib: int
    live: int
    log: int
    references: str
    shape: str = "graph"

    @property
    def is_usual(self) -> bool:
        """Whether `pcompact generate` makes such a heap: a graph of live objects with dead ones between them."""
        return self.shape == "graph" and self.live < 100

    def __str__(self) -> str:
        what = f"{self.references} references" if self.shape == "graph" else f"shape {self.shape}"
        return f"{self.mib} MiB, {self.live} % live, region log {self.log}, {what}"


LONG_RUNS = [Case(32, 100, 9, "few", shape) for shape in ("graph", "object", "array")] + [Case(32, 0, 9, "few", "last")]


@dataclasses.dataclass(frozen=True)
class Run:
    seconds: float
    peak_mib: float


Rounds = list[dict[str, Run]]


def generate(pcompact: pathlib.Path, image: pathlib.Path, case: Case) -> None:
    """Makes the image of version 1 by `pcompact generate`."""
    words = ["--words", case.mib << 17, "--live", case.live, "--region-log", case.log, "--seed", 1,
             "--refs", REFERENCES[case.references], "--version", 1]
    subprocess.run([pcompact, "generate", image, *map(str, words)], check=True, stdout=subprocess.DEVNULL)


class Programs:
    def __init__(self, scratch: pathlib.Path, pcompact: pathlib.Path):
        self.scratch = scratch
        self.pcompact = pcompact
        self.plain = plain_program(scratch)

    def make(self, case: Case) -> tuple[pathlib.Path, list[str]]:
        """The image of version 1, and its numbers of live objects, live words, references and roots."""
        if not case.is_usual:
            return self.make_plainly(case, 1)
        image = self.scratch / "image"
        generate(self.pcompact, image, case)
        return image, subprocess.run([self.plain, "tell", image], check=True, capture_output=True, text=True).stdout.split()

    def make_plainly(self, case: Case, version: int) -> tuple[pathlib.Path, list[str]]:
        """The same by the plain program, whose roots stand in random order."""
        image = self.scratch / f"image-{version}"
        words = ["--mib", case.mib, "--live", case.live, "--log", case.log, "--references", REFERENCES[case.references],
                 "--shape", case.shape, "--version", version]
        command = [self.plain, "generate", image, *map(str, words)]
        return image, subprocess.run(command, check=True, capture_output=True, text=True).stdout.split()

    def collect(self, image: pathlib.Path, workers: int) -> list:
        return [self.pcompact, "collect", image, "--workers", str(workers)]

    def jobs(self, image: pathlib.Path) -> dict[str, list]:
        """Of each thing that is measured its command, all but the file that it writes."""
        jobs = {"copy": [self.plain, "copy", image], "plain": [self.plain, "collect", image]}
        return jobs | {f"pcompact {workers}": self.collect(image, workers) for workers in WORKERS}

    def rooted_jobs(self, one: pathlib.Path, two: pathlib.Path) -> dict[str, list]:
        """As `jobs`, over both versions of a heap."""
        return {"plain 1": [self.plain, "collect", one], "plain 2": [self.plain, "collect", two],
                "version 1": self.collect(one, 1), "version 2": self.collect(two, 1)}

    def out(self, job: str) -> pathlib.Path:
        return self.scratch / f"{job}.out"

    def run(self, job: str, command: list) -> tuple[Run, str]:
        """What a run of a job took, and what it printed."""
        out = self.out(job)
        out.unlink(missing_ok=True)
        command = [self.plain, "measure", *command[:3], out, *command[3:]]
        done = subprocess.run(command, capture_output=True, text=True)
        if done.returncode != 0:
            sys.exit(f"{job} failed: {done.stderr}")
        nanoseconds, peak_kib = map(int, done.stderr.splitlines()[-1].split())
        return Run(nanoseconds / 1e9, peak_kib / 1024), done.stdout


def model_of(job: str) -> str | None:
    """The job of the plain program that must write and print the same."""
    models = {"version 1": "plain 1", "version 2": "plain 2"}
    return models.get(job, "plain" if job.startswith("pcompact") else None)


def compare(programs: Programs, printed: dict[str, str]) -> list[str]:
    """The jobs that wrote or printed another thing than the plain program."""
    models = {job: model_of(job) for job in printed}
    return [job for job, model in models.items() if model and not (
        printed[job] == printed[model] and filecmp.cmp(programs.out(job), programs.out(model), shallow=False))]


def measure(programs: Programs, case: Case, commands: dict[str, list], count: int) -> Rounds:
    jobs = list(commands.items())
    rounds = []
    for k in range(count):
        turned = jobs[k % len(jobs):] + jobs[:k % len(jobs)]
        done = {job: programs.run(job, command) for job, command in turned}
        others = compare(programs, {job: printed for job, (_, printed) in done.items()})
        if others:
            sys.exit(f"{case}: {', '.join(others)} and plain differ; the files are in {programs.scratch}")
        rounds.append({job: run for job, (run, _) in done.items()})
    return rounds


def milliseconds(rounds: Rounds, job: str) -> float:
    return 1e3 * statistics.median(r[job].seconds for r in rounds)


def ratio(rounds: Rounds, job: str, other: str) -> float:
    return statistics.median(r[job].seconds / r[other].seconds for r in rounds)


def peak(rounds: Rounds, job: str) -> float:
    return statistics.median(r[job].peak_mib for r in rounds)


HEAD = """
| MiB | live % | log | references | objects, live words, references | copy ms | plain ms \
| pcompact ms, workers 1 / 2 / 4 | 1 to plain | 1 to copy | 2 to 1 | 4 to 1 | peak MiB plain | pcompact 1 / 4 |
|---|---|---|---|---|---|---|---|---|---|---|---|---|---|"""


def named(case: Case) -> str:
    return case.references if case.shape == "graph" else case.shape


def row(case: Case, rounds: Rounds, facts: list[str]) -> str:
    one, two, four = (f"pcompact {workers}" for workers in WORKERS)
    cells = [case.mib, case.live, case.log, named(case), ", ".join(facts[:3]),
             f"{milliseconds(rounds, 'copy'):.1f}", f"{milliseconds(rounds, 'plain'):.1f}",
             " / ".join(f"{milliseconds(rounds, job):.1f}" for job in (one, two, four)),
             f"{ratio(rounds, one, 'plain'):.2f}", f"{ratio(rounds, one, 'copy'):.2f}",
             f"{ratio(rounds, two, one):.2f}", f"{ratio(rounds, four, one):.2f}",
             f"{peak(rounds, 'plain'):.1f}", f"{peak(rounds, one):.1f} / {peak(rounds, four):.1f}"]
    return f"| {' | '.join(map(str, cells))} |"


def worst(what: str, goal: float, figures: dict[Case, float]) -> str:
    if not figures:
        return f"{what}: not measured"
    case = max(figures, key=figures.get)
    said = "kept" if figures[case] <= goal else "missed"
    return f"{what}: at most {figures[case]:.2f} ({case}), goal {goal}: {said}"


def goals(measured: dict[Case, Rounds]) -> list[str]:
    large = {case: rounds for case, rounds in measured.items() if case.mib == 32 and case not in LONG_RUNS}

    def to_other(**other: int) -> dict[Case, float]:
        """The times of the large images, divided by those of the image that is the same but for `other`."""
        pairs = {case: dataclasses.replace(case, **other) for case in large}
        return {case: milliseconds(large[case], "pcompact 1") / milliseconds(measured[small], "pcompact 1")
                for case, small in pairs.items() if small != case and small in measured}

    return [
        worst("one worker to the plain program", 1.5, {c: ratio(r, "pcompact 1", "plain") for c, r in large.items()}),
        worst("two workers to one, region log 9", 0.75,
              {c: ratio(r, "pcompact 2", "pcompact 1") for c, r in large.items() if c.log == 9}),
        worst("region log 16 to region log 9", 1.1, to_other(log=9)),
        worst("time a word, 32 MiB to 8 MiB", 1.2, {c: figure / 4 for c, figure in to_other(mib=8).items()}),
        worst("peak memory to the plain program", 1.15,
              {c: peak(r, "pcompact 1") / peak(r, "plain") for c, r in large.items()}),
        *(f"one worker to the plain program, {c}: {ratio(r, 'pcompact 1', 'plain'):.2f}; no goal"
          for c, r in measured.items() if c in LONG_RUNS),
    ]


ROOTED_HEAD = """
| shape | log | objects | references | roots | ms, versions 1 / 2 | 2 to 1 | plain ms, 1 / 2 | 2 to 1 \
| version 2 to plain | peak MiB, 1 / 2 | 2 to 1 |
|---|---|---|---|---|---|---|---|---|---|---|---|"""


def rooted_row(case: Case, rounds: Rounds, facts: list[str]) -> str:
    objects, _, references, roots = facts

    def times(name: str) -> list[str]:
        one, two = f"{name} 1", f"{name} 2"
        return [f"{milliseconds(rounds, one):.1f} / {milliseconds(rounds, two):.1f}", f"{ratio(rounds, two, one):.2f}"]

    one, two = peak(rounds, "version 1"), peak(rounds, "version 2")
    cells = [named(case), case.log, objects, references, roots, *times("version"), *times("plain"),
             f"{ratio(rounds, 'version 2', 'plain 2'):.2f}", f"{one:.1f} / {two:.1f}", f"{two / one:.2f}"]
    return f"| {' | '.join(map(str, cells))} |"


def rooted_goals(measured: dict[Case, Rounds]) -> list[str]:
    times = {case: ratio(rounds, "version 2", "version 1") for case, rounds in measured.items()}
    plain = {case: ratio(rounds, "plain 2", "plain 1") for case, rounds in measured.items()}
    peaks = {case: peak(rounds, "version 2") / peak(rounds, "version 1") for case, rounds in measured.items()}

    def among(figures: dict[Case, float], *shapes: str) -> dict[Case, float]:
        return {case: figure for case, figure in figures.items() if case.shape in shapes}

    return [
        worst("time of version 2 to version 1, one worker", 1.25, among(times, "graph")),
        *(f"the same, {case}: {times[case]:.2f}, and {plain[case]:.2f} in the plain program; no goal"
          for case in measured if case.shape != "graph"),
        worst("peak memory of version 2 to version 1", 1.15, among(peaks, "graph", "list")),
        worst("the same, of an array that refers to every object", 1.5, among(peaks, "array")),
    ]


def compare_versions(programs: Programs, count: int) -> None:
    cases = [Case(32, 50, log, references) for log in (9, 16) for references in REFERENCES]
    cases += [Case(32, 50, 9, "few", shape) for shape in ("list", "array")]
    measured = {}
    print(ROOTED_HEAD)
    for case in cases:
        one, _ = programs.make_plainly(case, 1)
        two, facts = programs.make_plainly(case, 2)
        measured[case] = measure(programs, case, programs.rooted_jobs(one, two), count)
        print(rooted_row(case, measured[case], facts), flush=True)
    print("\nAll outputs of an image were equal byte for byte.\n")
    print("\n".join(rooted_goals(measured)))


def compare_workers(programs: Programs, count: int, is_quick: bool) -> None:
    cases = [Case(*kind) for kind in itertools.product((1, 8, 32), (25, 50, 90), (9, 16), REFERENCES)]
    if is_quick:
        cases = [case for case in cases if case.mib == 32 and case.live == 50]
    cases += LONG_RUNS
    measured = {}
    print(HEAD)
    for case in cases:
        image, facts = programs.make(case)
        measured[case] = measure(programs, case, programs.jobs(image), count)
        print(row(case, measured[case], facts), flush=True)
    print("\nAll outputs of an image were equal byte for byte.\n")
    print("\n".join(goals(measured)))


def told(command: list, folder: pathlib.Path, cores: set[int]) -> dict[str, float]:
    """The milliseconds of each phase that a program prints, run on these cores alone."""
    (folder / "compacted").unlink(missing_ok=True)
    done = subprocess.run(command, cwd=folder, check=True, capture_output=True, text=True,
                          preexec_fn=lambda: os.sched_setaffinity(0, cores))
    lines = [line.split() for line in done.stdout.splitlines()]
    return {line[0]: int(line[1]) / 1e6 for line in lines if len(line) == 2}


def phases_of(ours: pathlib.Path, plain: pathlib.Path, cores: set[int], count: int) -> tuple[dict, dict]:
    """The least milliseconds of each phase: ours by as many workers as cores, and the plain program's."""
    folder = ours.parent.parent
    rounds = []
    for _ in range(count):
        parts = told([ours], folder, cores)
        collected = told([ours, str(len(cores))], folder, cores)
        written = (folder / "compacted").rename(folder / "ours")
        theirs = told([plain, "phases", "image", "compacted"], folder, cores)
        if not filecmp.cmp(written, folder / "compacted", shallow=False):
            sys.exit(f"the phases wrote another file than the plain program; the files are in {folder}")
        rounds.append((parts | collected, theirs))
    least = [{phase: min(r[k][phase] for r in rounds) for phase in rounds[0][k]} for k in (0, 1)]
    least[0]["cells"] = max(0.0, least[0]["prepare"] - least[0]["marks"] - least[0]["plan"])
    return least[0], least[1]


def compare_phases(scratch: pathlib.Path, pcompact: pathlib.Path, count: int) -> None:
    plain = plain_program(scratch)
    image = scratch / "crates" / "phases" / "image"
    image.parent.mkdir(parents=True, exist_ok=True)
    generate(pcompact, image, Case(1, 50, 9, "few"))
    ours = proved(scratch, here / "phases" / "phases.rt.txt", "collector", may_wait=4)
    there = sorted(os.sched_getaffinity(0))
    print("\n| log | cores | program | " + " | ".join([*PHASES, "in all"]) + " |")
    print("|---" * (len(PHASES) + 4) + "|")
    for log in (9, 16):
        generate(pcompact, image, Case(32, 50, log, "few"))
        for cores in sorted({1, len(there)}):
            found = phases_of(ours, plain, set(there[:cores]), count)
            for program, phases in zip(("pcompact", "plain"), found):
                cells = [phases.get(phase, 0.0) for phase in PHASES]
                cells.append(sum(cells))
                print(f"| {log} | {cores} | {program} | " + " | ".join(f"{cell:.1f}" for cell in cells) + " |", flush=True)


MEMORY_HEAD = """
| log | references | live MiB | workers | least ms | median ms | live MiB a second | to plain | to one worker |
|---|---|---|---|---|---|---|---|---|"""


def times(command: list, folder: pathlib.Path) -> list[float]:
    """The milliseconds of each collection that a program tells."""
    (folder / "compacted").unlink(missing_ok=True)
    done = subprocess.run(command, cwd=folder, check=True, capture_output=True, text=True)
    return [int(line) / 1e6 for line in done.stdout.splitlines()]


def memory_rounds(ours: pathlib.Path, plain: pathlib.Path, count: int) -> list[dict[str, list[float]]]:
    """Of each round the milliseconds of all collections, by the program that made them."""
    folder = ours.parent.parent
    jobs = [("plain", [plain, "memory", "image", "compacted", str(COPIES)])]
    jobs += [(f"{workers} of pcompact", [ours, str(workers), str(COPIES)]) for workers in WORKERS]
    rounds = []
    for k in range(count):
        found, written = {}, []
        for job, command in jobs[k % len(jobs):] + jobs[:k % len(jobs)]:
            found[job] = times(command, folder)
            written.append((folder / "compacted").read_bytes())
        if any(other != written[0] for other in written):
            sys.exit(f"the collections in memory left different images; the heap is in {folder}")
        rounds.append(found)
    return rounds


def memory_row(case: Case, rounds: list[dict[str, list[float]]], job: str, live_mib: float) -> str:
    all_times = [time for found in rounds for time in found[job]]

    def to(other: str) -> str:
        return f"{statistics.median(statistics.median(r[job]) / statistics.median(r[other]) for r in rounds):.2f}"

    median = statistics.median(all_times)
    cells = [case.log, case.references, f"{live_mib:.1f}", job, f"{min(all_times):.1f}", f"{median:.1f}",
             f"{1e3 * live_mib / median:.0f}", to("plain"), to("1 of pcompact")]
    return f"| {' | '.join(map(str, cells))} |"


def compare_in_memory(programs: Programs, count: int) -> None:
    # The first call makes the folder for the image.
    ours = proved(programs.scratch, here / "in_memory" / "in_memory.rt.txt", "collector", may_wait=3)
    print(MEMORY_HEAD)
    for log, references in itertools.product((9, 16), REFERENCES):
        case = Case(32, 50, log, references)
        image, facts = programs.make(case)
        shutil.copy(image, ours.parent.parent / "image")
        rounds = memory_rounds(ours, programs.plain, count)
        for job in rounds[0]:
            print(memory_row(case, rounds, job, int(facts[1]) / (1 << 17)), flush=True)
    print("\nAll images that were left of one heap were equal byte for byte.")


def main() -> None:
    parser = argparse.ArgumentParser(description=__doc__, formatter_class=argparse.RawDescriptionHelpFormatter)
    parser.add_argument("--pcompact", type=pathlib.Path, help="the program (the one that the script pcompact builds)")
    parser.add_argument("--rounds", type=int, default=7, help="how often each program runs on an image (7)")
    parser.add_argument("--quick", action="store_true", help="only the images of 32 MiB of which half is live")
    parser.add_argument("--version", type=int, choices=(1, 2), default=1,
                        help="2: both versions of heaps of 32 MiB (1)")
    parser.add_argument("--phases", action="store_true", help="how long each phase takes")
    parser.add_argument("--memory", action="store_true", help="how long collections take in memory, without files")
    parser.add_argument("--scratch", type=pathlib.Path, help="where to build (a folder among the temporary files)",
                        default=pathlib.Path(tempfile.gettempdir()) / "collect-bench")
    asked = parser.parse_args()

    os.environ.setdefault("GLIBC_TUNABLES", TUNABLES)
    asked.scratch.mkdir(parents=True, exist_ok=True)
    scratch, pcompact = asked.scratch.resolve(), (asked.pcompact or built()).resolve()
    if asked.phases:
        compare_phases(scratch, pcompact, asked.rounds)
        return
    programs = Programs(scratch, pcompact)
    if asked.memory:
        compare_in_memory(programs, asked.rounds)
    elif asked.version == 2:
        compare_versions(programs, asked.rounds)
    else:
        compare_workers(programs, asked.rounds, asked.quick)


main()
