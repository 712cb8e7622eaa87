#!/usr/bin/env python3
"""How much memory a collection holds at most, by the sizes of what it is made of.

An image remembers what its check has seen: a bit for each word and a size for each live object. A collection lets go of both
before its workers begin. What its board keeps for each region and pair counts where regions are small: of 8 words in the first
heap, 512 in the second.

usage: tests/faults/test_memory.py [PROGRAM]      (needs a C compiler)
"""
import os
import pathlib
import subprocess
import sys
import tempfile

# Finds the package `tests` from any folder, and writes nothing beside its modules.
sys.dont_write_bytecode = True
sys.path.insert(0, str(pathlib.Path(__file__).resolve().parents[2]))
from tests.faults.test_threads import FILLS, Heap
from tests.support.program import PRELOAD, built

# Of each heap the most bytes that its collection may hold at a time, a few hundredths above what it holds.
HEAPS = {
    Heap("small_regions", FILLS, 1, 3, 1 << 17, objects=130_000, at=1): 7_400_000,
    Heap("large_regions", FILLS, 1, 9, 1 << 21, objects=1_900_000, at=1): 41_350_000,
}


def most_held(program: pathlib.Path, counter: pathlib.Path, room: pathlib.Path) -> int:
    subprocess.run(["sh", "-c", 'exec "$0" "$@" 3>held', program, *"collect heap out --workers 1".split()], check=True, cwd=room,
                   stdout=subprocess.DEVNULL, env=dict(os.environ, LD_PRELOAD=str(counter)))
    return int((room / "held").read_text())


def main() -> int:
    program = pathlib.Path(sys.argv[1]).resolve() if len(sys.argv) > 1 else built()
    passed = failed = 0
    with tempfile.TemporaryDirectory() as made:
        room = pathlib.Path(made)
        counter = room / "counter.so"
        subprocess.run(["cc", "-shared", "-fPIC", "-O2", "-o", counter, PRELOAD / "count_held.c"], check=True)
        for heap, most in HEAPS.items():
            (room / "heap").write_bytes(heap.text())
            held = most_held(program, counter, room)
            print(f"{heap.name}: {held} bytes at most")
            if len(heap.text()) < held <= most:
                passed += 1
            else:
                failed += 1
                print(f"wrong: more than {most}")
    print(f"{passed} passed, {failed} failed")
    return 1 if failed else 0


if __name__ == "__main__":
    sys.exit(main())
