#!/usr/bin/env python3
"""Builds the library for C, over the libraries that `rt ci` has just proved and left here.

`rt ci` doesn't mark these with what they were made from, and without the marks `rt lib` would prove all of them once more. This
writes the marks by the module of rt that computes them. With a kit that build_crate.py was never tried with all is proved again,
which takes longer and leaves the same bytes.

usage: tests/build/build_library.py
"""
import os
import pathlib
import subprocess
import sys
import types

from build_crate import load_rt, mark

TOP = pathlib.Path(__file__).resolve().parents[2]
CRATE = TOP / "crates" / "pcompact_c"


def mark_libraries(rt: types.ModuleType) -> None:
    """Marks each library that has no mark."""
    for crate in rt.crates_below(str(TOP)):
        folder = pathlib.Path(crate.folder, "out", "rlib")
        if folder.is_dir() and not (folder / "stamp").exists():
            mark(crate)


def main() -> int:
    os.chdir(TOP)
    try:
        rt = load_rt()
        mark_libraries(rt)
    except (ImportError, AttributeError) as error:
        print(f"rt lib proves all crates below again: {error}")
        return subprocess.run(["rt", "lib"], cwd=CRATE, check=False).returncode
    os.chdir(CRATE)
    return rt.main("lib")


if __name__ == "__main__":
    sys.exit(main())
