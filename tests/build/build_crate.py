#!/usr/bin/env python3
"""Proves and builds the crate of this folder, over libraries that are built, as `rt check`, `lib`, `run` and `test` do, but sooner.

rt knows what is built by a sum of a crate's sources and of those below, and computes it anew for each way from one crate to
another: thousands of ways in the upper crates, which take minutes. Here each sum is computed once, so the sources must not change
meanwhile. `statements` proves a library from nothing and keeps its statements alone, which load faster than its proofs, as
`rt verdict` does for the crates above. Unlike that, it doesn't search for contracts that no call can meet.

This calls functions of rt's module, and replaces some, for the kits that it was tried with. For any other kit it calls rt.

usage: tests/build/build_crate.py JOBS statements
       tests/build/build_crate.py JOBS check|lib|run|test [WORD ..]
"""
import functools
import os
import pathlib
import shutil
import subprocess
import sys
import types
from collections.abc import Callable

# What `rt version` prints of the kits that this was tried with.
KITS = ("rattle-kit-13b logic dac8208d650f15bf", "rattle-kit-13f logic dac8208d650f15bf")
VERBS = ("statements", "check", "lib", "run", "test")


def load_rt() -> types.ModuleType:
    """The module that rt is made of, with sums that are computed once. Raises ImportError if the kit is none of KITS or has no
    such module, and AttributeError if it is another module."""
    kit = subprocess.run(["rt", "version"], check=True, capture_output=True, text=True).stdout.strip()
    if kit not in KITS:
        raise ImportError(f"the kit {kit} was never tried")
    sys.path.insert(0, str(pathlib.Path(shutil.which("rt") or "rt").resolve().parent))
    import rtlib

    rtlib.Crate.stamp = functools.cache(rtlib.Crate.stamp)
    return rtlib


def mark(crate) -> None:
    """Marks a library as made of the sources as they stand, by which rt knows it."""
    pathlib.Path(crate.folder, "out", "rlib", "stamp").write_text(crate.stamp())


def help_without(help_of: Callable[[str], str], flag: str, verb: str) -> str:
    """The help of a command of rattle, as if it hadn't this flag."""
    return help_of(verb).replace(flag, "")


def prove_statements(rt: types.ModuleType, jobs: str) -> int:
    """Proves a library and keeps its statements. Returns the exit status."""
    # rt searches for contracts that no call can meet where rattle's help has this flag.
    rt.help_of = functools.partial(help_without, rt.help_of, "--empty-contracts")
    rt.guarded()
    here = os.getcwd()
    crate = rt.Crate(here, rt.root_above(here) or here, {})
    lacking = [dep.name for dep in crate.below() if not dep.is_built()]
    if lacking:
        print(f"the library {lacking[0]} isn't built")
        return 1
    held = rt.lock([*crate.below(), crate])
    rt.Crate.cuts_libraries = True
    status = crate.build_rlib(["--jobs", jobs], anew=True)
    if status == 0:
        mark(crate)
    for it in held:
        os.close(it)
    return status


def main() -> int:
    if len(sys.argv) < 3 or not sys.argv[1].isdigit() or sys.argv[2] not in VERBS:
        print(__doc__.strip(), file=sys.stderr)
        return 2
    jobs, verb, *words = sys.argv[1:]
    try:
        rt = load_rt()
    except (ImportError, AttributeError) as error:
        print(f"rt takes longer, as its module isn't the one that is known here: {error}", flush=True)
        verb = "lib" if verb == "statements" else verb
        return subprocess.run(["rt", verb, "--jobs", jobs, *words], check=False).returncode
    return prove_statements(rt, jobs) if verb == "statements" else rt.main(verb, "--jobs", jobs, *words)


if __name__ == "__main__":
    sys.exit(main())
