#!/usr/bin/env python3
"""Runs the built program with --stats, and compares what that adds to standard error with the forms in docs/COMMANDS.md.
All else must be as without it: status, standard output and files, also where something goes wrong.

The clock, the system's file of the process, standard error, each call on files and each allocation fail in turn. And a clock
that goes on by 1000 seconds, at each of its readings in turn, shows to which phase the time before that reading counts.

usage: tests/cli/test_stats.py [PROGRAM]      (needs a C compiler)
"""
import itertools
import os
import pathlib
import re
import subprocess
import sys
import tempfile
import time

# Finds the package `tests` from any folder, and writes nothing beside its modules.
sys.dont_write_bytecode = True
sys.path.insert(0, str(pathlib.Path(__file__).resolve().parents[2]))
from tests.support.cases import BASE, COLLECTED, COMPACTED, ONE_WORKER, WORDS, image, rooted
from tests.support.program import PRELOAD, Answer, Tried, built, without_details

COLLECT = ["read", "check", "prepare", "fills", "clean-up", "write"]
RECORD = [*COLLECT, "schedule"]
VERIFY = ["read BEFORE", "check BEFORE", "read AFTER", "check AFTER", "compare"]
END = ["finish", "total"]
MIB = 1 << 20
FAULT_13 = "pcompact: fault 13 input or output\n"
FAULT_11 = "pcompact: fault 11 memory\n"

# Each command over the base heap with one worker, its phases, what it prints, and what it makes.
COMMANDS = [
    ("collect base out --workers 1", COLLECT, COLLECTED, {"out": COMPACTED}),
    ("record base out schedule --workers 1", RECORD, COLLECTED, {"out": COMPACTED, "schedule": ONE_WORKER.encode()}),
    ("verify base compacted", VERIFY, "same\n", {}),
]


def lines_of(phases: list[str], threads: int | None) -> list[str]:
    """All lines, in order, with `#` for each row of digits. So many workers collect; without a number it is a comparison."""
    lines = [f"{phase} #.# ms" for phase in phases + END]
    if threads is not None:
        lines += ["heap #.# MiB, #.# per cent kept", "live #.# MiB moved, # MiB a second"]
    lines += [f"threads {threads or '#'}", "peak memory #.# MiB"]
    return [f"pcompact: {line}\n" for line in lines]


def matching(lines: list[str]) -> str:
    """What such lines match."""
    return "".join(re.escape(line).replace(r"\#\.\#", r"\d+\.\d").replace(r"\#", r"\d+") for line in lines)


def pattern(phases: list[str], threads: int | None) -> re.Pattern:
    return re.compile(matching(lines_of(phases, threads)))


def workers_of(words: str) -> int | None:
    return int(words.split()[words.split().index("--workers") + 1]) if "--workers" in words else None


def is_part(err: str, lines: list[str]) -> bool:
    """Whether these are some of the lines, in order, of which the last may be cut short."""
    told = re.sub(r"\d+(\.\d*)?", "#", err).splitlines(keepends=True)
    left = iter([re.sub(r"\d+", "#", line).replace("#.#", "#") for line in lines])
    return all(any(line == it if it.endswith("\n") else line.startswith(it) for line in left) for it in told)


def try_lines(tried: Tried) -> None:
    """Each line, in order, by 1 to 64 workers, of each version, from files and pipes, with the other options."""
    for words, phases, out, made in COMMANDS:
        told = Answer(0, out, pattern(phases, workers_of(words)), made)
        for more in ("", " --verbose", " --atomic", " --atomic --verbose"):
            if "--atomic" not in more or "verify" not in words:
                tried.run(f"{words} --stats{more}", told)
        tried.run([words.split()[0], "--stats", *words.split()[1:]], told)
    for workers in (1, 2, 4, 64):
        told = pattern(COLLECT, workers)
        tried.run(f"collect base out --workers {workers} --stats", Answer(0, COLLECTED, told, {"out": COMPACTED}))
        for rooted_in in ("rooted", "third"):
            tried.run(f"collect {rooted_in} out --workers {workers} --stats", Answer(0, COLLECTED, told))
        tried.run(f"collect /dev/stdin out --workers {workers} --stats", Answer(0, COLLECTED, told, {"out": COMPACTED}),
                  input=BASE)
        tried.run(f"record base out schedule --workers {workers} --stats",
                  Answer(0, COLLECTED, pattern(RECORD, workers), {"out": COMPACTED}))
    tried.run("collect base out --workers 2 --stats --stats",
              Answer(2, err="error: the argument '--stats' cannot be used multiple times\n", made={"out": None}))
    # A file of this name is no option.
    tried.write("--stats", BASE)
    tried.run("collect --workers 1 -- --stats out", Answer(0, COLLECTED, made={"out": COMPACTED}))


def figures_of(err: str) -> dict[str, float]:
    """The first numbers that the lines tell, and the second ones of the heap and of the live words."""
    found = {}
    for line in err.splitlines():
        name, *numbers = re.split(r" (?=\d)", line.removeprefix("pcompact: "))
        found[name] = float(numbers[0].split()[0])
        if name in ("heap", "live"):
            found[{"heap": "share", "live": "rate"}[name]] = float(numbers[1].split()[0])
    return found


def try_figures(tried: Tried) -> None:
    """What the lines tell of a large heap: 1,048,576 words, half live."""
    made = subprocess.run([tried.program, "generate", "large", "--words", "1048576", "--live", "50", "--region-log", "9", "--seed",
                           "1"], cwd=tried.folder, capture_output=True, check=True)
    assert made.stdout
    for words, phases in (("collect large out --workers 2", COLLECT), ("record large out schedule --workers 1", RECORD),
                          ("collect large again --workers 1 --atomic", COLLECT), ("verify large out", VERIFY)):
        begun = time.monotonic()
        done = subprocess.run([tried.program, *words.split(), "--stats"], cwd=tried.folder, capture_output=True, text=True)
        passed = 1e3 * (time.monotonic() - begun)
        told = figures_of(done.stderr)
        tried.count += 1
        parts = sum(told[phase] for phase in (*phases, "finish"))
        is_right = (done.returncode == 0 and abs(parts - told["total"]) <= 0.1 * (len(phases) + 1)
                    and told["total"] <= passed + 0.1 and 8 <= told["peak memory"] <= 80)
        if phases is not VERIFY:
            in_memory = sum(told[phase] for phase in ("prepare", "fills", "clean-up"))
            rates = [4e3 / (in_memory + error) for error in (-0.2, 0.2)]
            is_right = is_right and (told["heap"], told["share"], told["live"]) == (8.0, 50.0, 4.0) and rates[1] - 1 <= told["rate"] <= rates[0] + 1
        if not is_right:
            tried.is_wrong(f"pcompact {words} --stats tells {done.stderr!r}, and {passed} ms have passed")
    try_prefix(tried)
    processors = sorted(os.sched_getaffinity(0))
    for number in {1, min(2, len(processors))}:
        lines = [line.replace("threads #", f"threads {number}") for line in lines_of(VERIFY, None)]
        tried.run("verify base compacted --stats", Answer(0, "same\n", re.compile(matching(lines))),
                  preexec_fn=lambda: os.sched_setaffinity(0, processors[:number]))


def try_prefix(tried: Tried) -> None:
    """What lies in the dense prefix is kept and doesn't move."""
    done = subprocess.run([tried.program, *"collect large again --workers 1 --allowance 200000 --stats".split()], cwd=tried.folder,
                          capture_output=True, text=True)
    prefix, top = (int(number) for number in re.match(r"prefix (\d+) top (\d+) ", done.stdout).groups())
    told = figures_of(done.stderr)
    tried.count += 1
    if prefix * 8 < MIB or (told["live"], told["share"]) != (round((top - prefix) * 8 / MIB, 1), round(100 * top / MIB, 1)):
        tried.is_wrong(f"of a prefix of {prefix} words and a top of {top} it prints {done.stderr!r}")


def try_peak(tried: Tried) -> None:
    """The peak of memory is that of the whole call, and not what it still has when it tells that."""
    library = shim(tried, "fail_stats.c")
    # Each large block is given back to the system where it is freed.
    freeing = "GLIBC_TUNABLES=glibc.malloc.mmap_threshold=4096"
    done = subprocess.run(["sh", "-c", 'exec "$@" 3>status', "sh", "env", f"LD_PRELOAD={library}", freeing, tried.program,
                           "collect", "large", "again", "--workers", "1", "--stats"], cwd=tried.folder, capture_output=True, text=True, check=True)
    status = tried.read("status").decode()
    peak, last = (int(re.search(rf"{name}:\s+(\d+) kB", status)[1]) / 1024 for name in ("VmHWM", "VmRSS"))
    tried.count += 1
    if peak < last + 1 or abs(figures_of(done.stderr)["peak memory"] - peak) > 0.5:
        tried.is_wrong(f"a peak of {peak} MiB, of which {last} are left, is printed as {done.stderr!r}")


def try_nothing_filled(tried: Tried) -> None:
    """With no live object there is nothing to fill or to move."""
    phases = [phase for phase in COLLECT if phase != "fills"]
    lines = [line.replace("live #.# MiB moved, # MiB", "live 0.0 MiB moved, 0 MiB").replace("#.# per cent", "0.0 per cent")
             for line in lines_of(phases, 2)]
    for text in (image(WORDS, []), rooted(WORDS, [])):
        tried.write("empty", text)
        tried.run("collect empty out --workers 2 --stats", Answer(0, "prefix 0 top 0 filled 0\n", re.compile(matching(lines))))


def try_faults(tried: Tried) -> None:
    """Where the status isn't 0 all is as without the option."""
    tried.write("cut", BASE[:100])
    for words in ("collect cut out --workers 1", "record base out base --workers 1", "verify cut base",
                  "verify base base", "verify base cut", "collect nothing out --workers 2 --verbose",
                  "collect base /dev/full --workers 1 --verbose", "record base out /dev/full --workers 1"):
        done = subprocess.run([tried.program, *words.split()], cwd=tried.folder, capture_output=True, text=True)
        tried.run(f"{words} --stats", Answer(done.returncode, done.stdout, done.stderr))
    with open("/dev/full", "wb") as full:
        for words, *_ in COMMANDS:
            tried.run(f"{words} --stats", Answer(1, err=FAULT_13), stdout=full)


def try_full_error(tried: Tried) -> None:
    """Standard error takes nothing."""
    with open("/dev/full", "wb") as full:
        for words, _, out, made in COMMANDS:
            tried.run(f"{words} --stats", Answer(0, out, made=made), stderr=full)
            tried.run(f"{words} --stats", Answer(0, out, made=made), preexec_fn=lambda: os.close(2))


def shim(tried: Tried, source: str) -> pathlib.Path:
    built = tried.folder / source.replace(".c", ".so")
    subprocess.run(["cc", "-shared", "-fPIC", "-O2", "-o", built, PRELOAD / source], check=True)
    return built


def try_silent_system(tried: Tried) -> None:
    """The system doesn't tell the time, from any moment on, or the peak memory."""
    loaded = {**os.environ, "LD_PRELOAD": str(shim(tried, "fail_stats.c"))}
    for words, phases, out, made in COMMANDS:
        lines = lines_of(phases, workers_of(words))
        tried.run(f"{words} --stats", Answer(0, out, re.compile(matching(lines[:-1])), made), env={**loaded, "NO_STATUS": "1"})
        timeless = [line.replace(", # MiB a second", "") for line in lines if " ms" not in line]
        tried.run(f"{words} --stats", Answer(0, out, re.compile(matching(timeless)), made), env={**loaded, "NO_CLOCK": "1"})
        # A phase whose end isn't known is left out, and so are the rest, the total and the rate.
        known = "".join(f"({matching([line])})?" for line in lines if line not in timeless and " ms" in line)
        later = f"({matching(timeless[:-2])})?".replace("moved", r"moved(, \d+ MiB a second)?") + matching(timeless[-2:])
        for number in range(2, 40):
            tried.run(f"{words} --stats", Answer(0, out, re.compile(known + later), made),
                      env={**loaded, "NO_CLOCK": str(number)})
        # Without the option the clock isn't read.
        tried.run(words, Answer(0, out, made=made), env={**loaded, "NO_CLOCK": "1", "NO_STATUS": "1"})


def try_late_clock(tried: Tried) -> None:
    """The time before each reading of the clock counts for one phase alone, and for the phases in their order. One worker's
    gate reads it before and after each of three fills: the first reading ends the preparation, each other one is of the
    fills. Readings in a row of which it doesn't matter how many there are stand as 0."""
    library = shim(tried, "fail_stats.c")
    collected = [("read", 0), ("check", 1), ("prepare", 1), ("fills", 5), ("clean-up", 1), ("write", 0)]
    # Both bodies are read ahead, if they are large, before the front of BEFORE.
    verified = [("read BEFORE", 1), ("read AFTER", 1), ("read BEFORE", 0), ("check BEFORE", 1), ("read AFTER", 0),
                ("check AFTER", 1), ("compare", 1)]
    owed = (collected, [*collected, ("schedule", 0)], verified)
    for (words, phases, *_), rows in zip(COMMANDS, owed):
        late = []
        for number in itertools.count(2):
            done = subprocess.run([tried.program, *words.split(), "--stats"], cwd=tried.folder, capture_output=True, text=True,
                                  env={**os.environ, "LD_PRELOAD": str(library), "LATE": str(number)}, check=True)
            told = figures_of(done.stderr)
            phase = [name for name in (*phases, "finish") if told[name] >= 1e6]
            tried.count += 1
            if told["total"] < 1e6:
                break
            if len(phase) != 1 or any(told[name] > 1e5 for name in (*phases, "finish") if name not in phase):
                tried.is_wrong(f"pcompact {words} --stats, the clock late from reading {number} on: {done.stderr!r}")
            late += phase
        found = [(name, len(list(some))) for name, some in itertools.groupby(late)]
        right = [*rows, ("finish", 1)]
        if [(name, count * (of != 0)) for (name, count), (_, of) in zip(found, right)] != right or len(found) != len(right):
            tried.is_wrong(f"pcompact {words} --stats: readings of the clock count for {found} and not {right}")


def each(tried: Tried, words: str, made: list[str], library: pathlib.Path, name: str):
    """Runs the words with each call in turn that the library stands before: the number and what came of it."""
    number, calls = 0, 0
    while number <= calls:
        for file in made:
            (tried.folder / file).unlink(missing_ok=True)
        counted = tried.folder / "counted"
        done = subprocess.run(["sh", "-c", 'exec "$@" 3>counted', "sh", "env", f"{name}={number}", f"LD_PRELOAD={library}",
                               tried.program, *words.split(), "--stats"],
                              cwd=tried.folder, capture_output=True, text=True, check=False)
        calls = int(counted.read_text())
        tried.count += 1
        yield number, done
        number += 1


def try_failing(tried: Tried, source: str, name: str, fault: str) -> None:
    """Each such call fails in turn: the fault alone, or all is right, but for lines that are left out or cut short."""
    library = shim(tried, source)
    for words, phases, out, made in COMMANDS:
        for number, done in each(tried, words, list(made), library, name):
            is_fault = done.returncode == 1 and done.stdout == "" and without_details(done.stderr) == fault
            # The line is on standard error where it can't be found out whether a file is standard output.
            lines = done.stderr if done.stdout else done.stderr.removeprefix(out)
            is_right = (done.returncode == 0 and done.stdout + done.stderr == out + lines
                        and is_part(lines, lines_of(phases, workers_of(words)))
                        and all(tried.read(file) == content for file, content in made.items()))
            if not (is_right if number == 0 else is_fault or is_right):
                tried.is_wrong(f"pcompact {words} --stats, {name} {number}: status {done.returncode}, {done.stderr!r}")


def try_failing_calls(tried: Tried) -> None:
    try_failing(tried, "fail_device.c", "FAILED", FAULT_13)


def try_refused_memory(tried: Tried) -> None:
    try_failing(tried, "refuse_allocation.c", "REFUSED", FAULT_11)


def main() -> int:
    with tempfile.TemporaryDirectory() as folder:
        tried = Tried(pathlib.Path(sys.argv[1]) if len(sys.argv) > 1 else built(), pathlib.Path(folder))
        tried.write("base", BASE)
        tried.write("rooted", rooted(WORDS, [21, 0]))
        tried.write("third", rooted(WORDS, [21, 0], version=3))
        tried.write("compacted", COMPACTED)
        for group in (try_lines, try_figures, try_peak, try_nothing_filled, try_faults, try_full_error, try_silent_system,
                      try_late_clock, try_failing_calls, try_refused_memory):
            group(tried)
        print(f"{tried.count - tried.wrong} passed, {tried.wrong} failed")
        return 1 if tried.wrong else 0


if __name__ == "__main__":
    sys.exit(main())
