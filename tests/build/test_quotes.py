#!/usr/bin/env python3
"""Looks whether each block of a page that is marked `rust` stands word for word in a file of crates/ that is proved, and each
that is marked `c` in one of examples/c.

usage: tests/build/test_quotes.py
"""
import pathlib
import re
import sys

TOP = pathlib.Path(__file__).resolve().parents[2]
# Where the code of a block stands, by the word that marks it.
SOURCES = {"rust": "crates/*/src/**/*.rt", "c": "examples/c/*.c"}


def main() -> int:
    pages = [*TOP.glob("*.md"), *TOP.glob("docs/*.md"), *TOP.glob("*/README.md"), *TOP.glob("crates/*/README.md")]
    sources = {word: [path.read_text() for path in TOP.glob(places)] for word, places in SOURCES.items()}
    passed = failed = 0
    for page in sorted(set(pages)):
        for word, code in re.findall(r"^```(rust|c)\n(.*?)^```$", page.read_text(), re.MULTILINE | re.DOTALL):
            if any(code in source for source in sources[word]):
                passed += 1
            else:
                failed += 1
                print(f"{page.relative_to(TOP)} shows code that isn't in {SOURCES[word]}:\n{code}")
    print(f"{passed} passed, {failed} failed")
    return 1 if failed or not passed else 0


if __name__ == "__main__":
    sys.exit(main())
