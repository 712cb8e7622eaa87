#!/usr/bin/env python3
"""Collects seeded heaps by 2 to 64 workers on 1 to 4 processors, beside one worker on the same heap.

Each heap has 2 to 256 regions of 8 to 512 words, of any version and share of live words. However the workers run, the figures and
all bytes of the compaction must be those of one worker. So a collection that is lost, or that never ends, is seen, too.

usage: tests/fuzz/many_workers.py [PROGRAM [SEED [COUNT]]]      COUNT collections, 1000 unless given
"""
import os
import pathlib
import random
import subprocess
import sys
import tempfile

# Finds the package `tests` from any folder, and writes nothing beside its modules.
sys.dont_write_bytecode = True
sys.path.insert(0, str(pathlib.Path(__file__).resolve().parents[2]))
from tests.support.program import built

# Of each heap so many collections by several workers.
EACH = 20
# Seconds after which a collection is said never to end. The largest takes milliseconds.
LONG = 120


def generate(program: pathlib.Path, room: pathlib.Path, chance: random.Random) -> str:
    """Writes a heap, and returns what it was asked for."""
    log = chance.randint(3, 9)
    words = chance.randint(2, 256) << log
    asked = (f"--words {words} --region-log {log} --live {chance.randint(0, 100)} --refs {chance.randint(0, 100)} "
             f"--version {chance.randint(1, 3)} --allowance {chance.choice([0, 0, words // 16])} --seed {chance.getrandbits(32)}")
    subprocess.run([program, "generate", "heap", *asked.split()], cwd=room, check=True, stdout=subprocess.DEVNULL)
    return asked


def collect(program: pathlib.Path, room: pathlib.Path, workers: int, processors: set[int]) -> tuple[int, bytes, bytes]:
    """The status, the figures and the compaction of a collection by so many workers on these processors."""
    done = subprocess.run([program, "collect", "heap", "out", "--workers", str(workers)], cwd=room, capture_output=True, timeout=LONG,
                          preexec_fn=lambda: os.sched_setaffinity(0, processors))
    return done.returncode, done.stdout, (room / "out").read_bytes() if done.returncode == 0 else done.stderr


def main() -> int:
    given = sys.argv[1:]
    program = pathlib.Path(given[0]).resolve() if given else built()
    seed, count = (int(given[at]) if len(given) > at else other for at, other in ((1, 1), (2, 1000)))
    chance, here = random.Random(seed), sorted(os.sched_getaffinity(0))
    failed = 0
    with tempfile.TemporaryDirectory() as made:
        room = pathlib.Path(made)
        for number in range(count):
            if number % EACH == 0:
                asked = generate(program, room, chance)
                alone = collect(program, room, 1, set(here))
            workers, most = chance.randint(2, 64), chance.randint(1, min(4, len(here)))
            if alone[0] or collect(program, room, workers, set(chance.sample(here, most))) != alone:
                failed += 1
                print(f"{workers} workers on {most} processors differ from one: generate {asked}")
    print(f"{count - failed} passed, {failed} failed")
    return 1 if failed else 0


if __name__ == "__main__":
    sys.exit(main())
