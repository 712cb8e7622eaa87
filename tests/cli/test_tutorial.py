#!/usr/bin/env python3
"""Runs the commands of docs/TOUR.md in order, as a reader would, and compares what each prints with what the page says.

usage: tests/cli/test_tutorial.py [PROGRAM] [--write]      (--write puts what they print into the page)

A command is a line of a code block that begins with `$ `, and what it prints are the lines behind it.
"""
import argparse
import pathlib
import re
import shutil
import subprocess
import sys
import tempfile

# Finds the package `tests` from any folder, and writes nothing beside its modules.
sys.dont_write_bytecode = True
sys.path.insert(0, str(pathlib.Path(__file__).resolve().parents[2]))
from tests.support.program import TOP, built

PAGE = TOP / "docs" / "TOUR.md"
STEP = re.compile(r"(?m)^\$ (.*)\n((?:(?!\$ |```).*\n)*)")


def printed(command: str, folder: pathlib.Path) -> str:
    done = subprocess.run(["sh", "-c", command], cwd=folder, stdout=subprocess.PIPE, stderr=subprocess.STDOUT, text=True, timeout=60,
                          env={"PATH": "/usr/bin:/bin", "LANG": "C.UTF-8"})
    return done.stdout


def main() -> None:
    words = argparse.ArgumentParser()
    words.add_argument("program", nargs="?", type=pathlib.Path)
    words.add_argument("--write", action="store_true")
    asked = words.parse_args()
    text = PAGE.read_text()
    passed = failed = 0
    with tempfile.TemporaryDirectory() as room:
        folder = pathlib.Path(room)
        shutil.copy(asked.program or built(), folder / "pcompact")
        shutil.copytree(TOP / "examples", folder / "examples")
        (folder / "docs").mkdir()
        shutil.copy(TOP / "docs" / "heap.svg", folder / "docs")

        def run(step: re.Match) -> str:
            nonlocal passed, failed
            found = printed(step[1], folder)
            if found == step[2]:
                passed += 1
            else:
                failed += 1
                print(f"$ {step[1]}\nprints\n{found}and the page says\n{step[2]}")
            return f"$ {step[1]}\n{found}"

        found = STEP.sub(run, text)
    if asked.write:
        PAGE.write_text(found)
    print(f"{passed} passed, {failed} failed")
    sys.exit(failed > 0 and not asked.write)


if __name__ == "__main__":
    main()
