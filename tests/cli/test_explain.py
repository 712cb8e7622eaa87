#!/usr/bin/env python3
"""Runs `verify --explain` and `--ignore-free` of the built program on what a collector with seeded bugs makes of images, in
each version, and compares all of standard error with a plain model. Without the options no line of an explanation must come.

usage: tests/cli/test_explain.py [PROGRAM]
"""
import dataclasses
import pathlib
import subprocess
import sys

# Finds the package `tests` from any folder, and writes nothing beside its modules.
sys.dont_write_bytecode = True
sys.path.insert(0, str(pathlib.Path(__file__).resolve().parents[2]))
from tests.models.explanation import verified
from tests.models.image import Collection, Image, decode, encode, header, upgraded
from tests.support import bugs
from tests.support.cases import BASE, COMPACTED, MOVED, MOVED_LIVE, image, try_groups, with_word
from tests.support.program import TOP, Answer, Tried
from tests.support.terminal import on_terminal

COLLECTOR = TOP / "examples" / "collector.py"
BUGS = ["", "reference", "data", "plan", "null", "filler", "free", "root"]
# More than 16 MiB.
LARGE = 2 ** 21 + 512
HEAPS = [(version, live, allowance) for version in (1, 2, 3) for live, allowance in ((20, 0), (50, 40), (90, 400))]


def answer(lines: list[str]) -> Answer:
    """What the program answers with these lines, the first of which is owed. Details may follow that alone."""
    if lines == ["same"]:
        return Answer(0, "same\n")
    return Answer(1, err="".join(f"pcompact: {line}\n" for line in lines))


def try_pair(tried: Tried, before: bytes, after: bytes) -> None:
    """Each combination of the options on two images."""
    tried.write("before", before)
    tried.write("after", after)
    for ignores_free in (False, True):
        lines = verified(before, after, ignores_free)
        words = "verify before after --ignore-free" if ignores_free else "verify before after"
        tried.run(words, answer(lines[:1]))
        tried.run(f"{words} --explain", answer(lines))
        tried.run(f"{words} --explain --verbose", answer(lines))


def try_bugs(tried: Tried, before: bytes) -> None:
    """What a collector makes of an image, right and with each bug."""
    tried.write("image", before)
    for bug in BUGS:
        subprocess.run([sys.executable, COLLECTOR, "image", "out", *bug.split()], cwd=tried.folder, check=True)
        try_pair(tried, before, tried.read("out"))


def try_others(tried: Tried) -> None:
    """Other sizes, single words, and more than ten words."""
    others = [COMPACTED, BASE, image(MOVED[:24], MOVED_LIVE), image(MOVED, []), image(MOVED, MOVED_LIVE, allowance=2),
              image(MOVED, MOVED_LIVE, log=4), encode(upgraded(decode(COMPACTED))), encode(upgraded(decode(COMPACTED), 3))]
    others += [image(with_word(MOVED, p, word), MOVED_LIVE) for p, word in ((18, 130), (31, 1), (19, 7), (1, 0), (1, 8))]
    others += [image(MOVED, live) for live in (MOVED_LIVE[:-1], MOVED_LIVE[1:], MOVED_LIVE[::-1])]
    for after in others:
        try_pair(tried, BASE, after)


def try_broken(tried: Tried) -> None:
    """Files that are no images, in each version and of more than 16 MiB: a reference leads above the heap, and a word above the
    top and the last root or live address are others."""
    words = [0] * LARGE
    words[1000:1003], words[2_000_000:2_000_003] = [header(3, 1), 2_000_001, 7], [header(3, 1), 1001, 8]
    for before in (*(upgraded(decode(BASE), version) for version in (1, 2, 3)), Image(3, 9, 0, words, [1001, 2_000_001])):
        after = Collection(before).compaction()
        length = len(after.words)
        spoiled = with_word(with_word(after.words, 1, length + 1), length - 1, 77)
        texts = encode(before), encode(dataclasses.replace(after, words=spoiled, tail=[*after.tail[:-1], after.tail[-1] + 1]))
        try_pair(tried, *texts)
        whole, below_top = verified(*texts), verified(*texts, ignore_free=True)
        tried.count += 1
        if not whole[0].startswith("fault ") or len(below_top) != len(whole) - 1:
            tried.is_wrong(f"of a file that is no image {below_top} is said of the words below the top, and {whole} of all")


def try_heaps(tried: Tried) -> None:
    try_bugs(tried, BASE)
    for version in (2, 3):
        try_bugs(tried, encode(upgraded(decode(BASE), version)))
    for version, live, allowance in HEAPS:
        words = f"generate heap --words 512 --live {live} --region-log 3 --seed 5 --version {version} --allowance {allowance}"
        tried.run(words, Answer(0, None))
        try_bugs(tried, tried.read("heap"))


def try_pointing(tried: Tried) -> None:
    """Each of eighteen bugs, in each version: the place, or what is wrong there, is among the lines."""
    for version in (1, 2, 3):
        words = f"generate heap --words 2048 --live 60 --region-log 5 --seed {version} --version {version} --allowance 120"
        tried.run(words, Answer(0, None))
        before = tried.read("heap")
        for bug in bugs.BUGS:
            heap = bugs.Collected(decode(before), seed=7)
            pointed = bug(heap)
            point(tried, f"{bug.__name__}, version {version}", before, heap.text(), pointed)
        point(tried, f"cut, version {version}", before, *bugs.cut(bugs.Collected(decode(before), seed=7)))


def point(tried: Tried, name: str, before: bytes, after: bytes, wanted: list[str]) -> None:
    """What is said of a bug, beside the model, and whether it has each of these."""
    try_pair(tried, before, after)
    lines = answer(verified(before, after)).err
    if not wanted or [part for part in wanted if part not in lines]:
        tried.is_wrong(f"{name}: {wanted} isn't all in\n{lines}")


def try_terminal(tried: Tried) -> None:
    """On a terminal a difference is explained by itself."""
    tried.write("before", BASE)
    tried.write("after", image(with_word(MOVED, 1, 10), MOVED_LIVE))
    whole = answer(verified(tried.read("before"), tried.read("after"))).err
    for option, wanted in (("", whole), ("--explain", whole), ("--verbose=never", whole.splitlines(keepends=True)[0])):
        if (found := on_terminal(tried, f"verify before after {option}")) != (1, wanted):
            tried.is_wrong(f"verify before after {option}, on a terminal: {found}")


GROUPS = (try_others, try_broken, try_heaps, try_pointing, try_terminal)

if __name__ == "__main__":
    sys.exit(try_groups(GROUPS))
