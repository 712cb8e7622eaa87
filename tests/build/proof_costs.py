#!/usr/bin/env python3
"""Shows what the prover's time goes into.

With a command, as `tests/build/proof_costs.py -- rt ci`: runs it, and then prints the ten checks that took the most processor time.
The kit reports no times of single functions there.
With crates: prints the ten functions of these whose proofs are the largest, by what their last check has kept in out/.
A megabyte takes one to four seconds. Most of a dear function are its lifetimes (Lts): CONTRIBUTING.md says how to write it.

usage: tests/build/proof_costs.py -- COMMAND ..
       tests/build/proof_costs.py CRATE ..
"""
import collections
import os
import pathlib
import re
import subprocess
import sys
import threading
import time

TOP = pathlib.Path(__file__).resolve().parents[2]
# The parts of a function's proof, as the kept files name them.
PARTS = ("Lts", "Proof", "Tie", "Answers")
TICKS = os.sysconf("SC_CLK_TCK")


def processes():
    """Of each process its number: the words of its call, its folder, and the numbers of /proc/N/stat from its state on."""
    found = {}
    for folder in pathlib.Path("/proc").glob("[0-9]*"):
        try:
            words = (folder / "cmdline").read_text().split("\0")
            numbers = (folder / "stat").read_text().rpartition(")")[2].split()
            found[int(folder.name)] = words, os.readlink(folder / "cwd"), numbers
        except OSError:
            continue
    return found


def running_checks(ours):
    """Of each check below one of our processes its number and start, what it checks, and its processor seconds."""
    found = processes()
    for process, (words, place, numbers) in found.items():
        above = process
        while above != ours and above in found:
            above = int(found[above][2][1])
        if above == ours and words[0].endswith("/rattle") and "--crate-name" in words:
            name = words[words.index("--crate-name") + 1]
            label = name if place.startswith(f"{TOP}/") else f"{name}, wrong bodies"
            yield (process, numbers[19]), label, (int(numbers[11]) + int(numbers[12])) / TICKS


def sample(process, seen):
    """Notes what each check has taken, until the process ends."""
    while process.poll() is None:
        time.sleep(0.5)
        for key, label, seconds in running_checks(process.pid):
            seen[key] = label, seconds


def watch(command):
    """Runs a command and shows what it prints, then which checks were dearest, then its last line again. Its status."""
    seen = {}
    last = ""
    began = time.monotonic()
    process = subprocess.Popen(command, stdout=subprocess.PIPE, stderr=subprocess.STDOUT, text=True, errors="replace")
    sampler = threading.Thread(target=sample, args=(process, seen))
    sampler.start()
    for last in process.stdout:
        print(last, end="", flush=True)
    sampler.join()
    spent = os.times()
    total = collections.Counter()
    for label, seconds in seen.values():
        total[label] += seconds
    print(f"{(time.monotonic() - began) / 60:.1f} minutes, {(spent[2] + spent[3]) / 60:.0f} of processors; the dearest checks:")
    for label, seconds in total.most_common(10):
        print(f"{seconds:7.0f} s  {label}")
    print(last, end="")
    return process.returncode


def sizes_of(crate):
    """The bytes of each function's proof, and those of its lifetimes."""
    found = collections.defaultdict(collections.Counter)
    for file in (TOP / "crates" / crate / "out" / "incremental").glob("antt*/*.oantt"):
        name, _, part = file.name.removesuffix(".oantt").removesuffix(".decls").rpartition(".")
        if part in PARTS:
            name = re.sub(r"^Rattle-.*?(?:-proofs|-specs)?\.|\.Code$", "", name)
            found[name][part] += file.stat().st_size
    return {(crate, name): parts for name, parts in found.items()}


def show_functions(crates):
    sizes = {key: parts for crate in crates for key, parts in sizes_of(crate).items()}
    if not sizes:
        print("no check of these crates has kept anything in out/incremental")
        return
    print("megabytes of proof, and of that lifetimes, of the ten dearest functions:")
    for (crate, name), parts in sorted(sizes.items(), key=lambda it: -it[1].total())[:10]:
        print(f"{parts.total() / 1e6:6.1f} {parts['Lts'] / 1e6:6.1f}  {crate}: {name}")


def main():
    words = sys.argv[1:]
    if words[:1] == ["--"] and len(words) > 1:
        return watch(words[1:])
    if not words or words[0].startswith("-"):
        print(__doc__.strip(), file=sys.stderr)
        return 2
    show_functions(words)
    return 0


if __name__ == "__main__":
    sys.exit(main())
