#!/usr/bin/env python3
"""Runs `generate`: each image beside a slow plain model of docs/GENERATE.md, and its rows.

usage: tests/cli/test_generate.py [PROGRAM]
"""
import dataclasses
import hashlib
import pathlib
import re
import sys

# Finds the package `tests` from any folder, and writes nothing beside its modules.
sys.dont_write_bytecode = True
sys.path.insert(0, str(pathlib.Path(__file__).resolve().parents[2]))
from tests.models import image as model
from tests.models.generated_heap import Wanted, generated
from tests.support.cases import try_groups
from tests.support.program import TOP, Answer, Tried, fault, usage

FULL = pathlib.Path("/dev/full")
FAULT_13 = "13 input or output"
SMALL = "--words 512 --live 50 --region-log 3 --seed 7"
PLAIN = Wanted(512, 3, 50, 25, 2, 0, 7)
OLD = b"what stood there before" * 40

WISHES = [
    PLAIN,
    Wanted(8, 3, 0, 25, 2, 0, 1), Wanted(8, 3, 100, 100, 2, 0, 2), Wanted(8, 3, 13, 0, 1, 5, 3),
    Wanted(512, 3, 1, 25, 1, 2, 0), Wanted(512, 9, 99, 100, 2, 0, 2**64 - 1), Wanted(4096, 4, 30, 0, 2, 2**64 - 1, 4),
    Wanted(4096, 12, 100, 25, 1, 0, 5), Wanted(16384, 3, 75, 50, 2, 100, 6), Wanted(65536, 16, 50, 25, 2, 0, 7),
    Wanted(65536, 9, 10, 90, 1, 1000, 2**63), Wanted(32, 3, 60, 50, 2, 5, 35), Wanted(32, 3, 60, 50, 1, 5, 35),
    Wanted(512, 3, 60, 50, 2, 5, 35), Wanted(512, 3, 60, 50, 2, 5, 36),
    Wanted(32, 3, 60, 50, 3, 5, 35), Wanted(512, 9, 99, 100, 3, 0, 2**64 - 1), Wanted(131072, 17, 50, 25, 3, 40, 8),
]


def words_of(wanted: Wanted) -> str:
    return (f"generate out --words {wanted.words} --region-log {wanted.region_log} --live {wanted.live_percent}"
            f" --refs {wanted.reference_percent} --version {wanted.version} --allowance {wanted.allowance}"
            f" --seed {wanted.seed}")


def try_wishes(tried: Tried) -> None:
    """Heaps as the model makes them, in each version, and what a collection makes of them."""
    for wanted in WISHES:
        image, line = generated(wanted)
        tried.run(words_of(wanted), Answer(0, line, made={"out": model.encode(image)}))
        collection = model.Collection(image)
        tried.write("heap", model.encode(image))
        tried.run("summary heap", Answer(0, collection.report()))
        collected = Answer(0, collection.figures(), made={"out": model.encode(collection.compaction())})
        tried.run("collect heap out --workers 2", collected)


def try_shares(tried: Tried) -> None:
    """Heaps of which each share of a hundred lives, and the rest are references."""
    for percent in range(101):
        wanted = Wanted(256, 3, percent, 100 - percent, 2, 5, percent)
        image, line = generated(wanted)
        tried.run(words_of(wanted), Answer(0, line, made={"out": model.encode(image)}))


def try_words(tried: Tried) -> None:
    """Options that are left out, and where they may stand."""
    image, line = generated(PLAIN)
    made = Answer(0, line, made={"out": model.encode(image)})
    for words in (f"generate out {SMALL}", f"generate {SMALL} out", f"generate {SMALL} --refs=25 --version=2 out",
                  f"generate out {SMALL} --atomic", f"generate out {SMALL} --verbose --atomic"):
        tried.run(words, made)
    missing = "error: the following required arguments were not provided:\n"
    options = ["--words <n>", "--live <share>", "--region-log <k>", "--seed <s>"]
    tried.run("generate out", usage(missing + "".join(f"  {option}\n" for option in options)))
    tried.run(f"generate {SMALL}", usage(f"{missing}  <IMAGE>\n"))
    for option, value, least, most in (("words <n>", 0, 1, 68719476736), ("words <n>", 68719476737, 1, 68719476736),
                                       ("live <share>", 101, 0, 100), ("refs <share>", 101, 0, 100),
                                       ("region-log <k>", 21, 3, 20), ("version <v>", 0, 1, 3), ("version <v>", 4, 1, 3)):
        said = f"error: invalid value '{value}' for '--{option}': {value} is not in {least}..={most}\n"
        tried.run(f"generate out --{option.split()[0]} {value}", dataclasses.replace(usage(said), made={"out": None}))


def try_no_heaps(tried: Tried) -> None:
    """Wishes that no image has. Nothing is changed."""
    tried.write("kept", OLD)
    many = "where 16384 are the most"
    for words, log, version, said in ((12, 3, "", "12 words are not a multiple of the 8 words of a region"),
                                      (1000, 9, "", "1000 words are not a multiple of the 512 words of a region"),
                                      (131080, 3, "1", f"131080 words are 16385 regions, {many}"),
                                      (131080, 3, "2", f"131080 words are 16385 regions, {many}"),
                                      (262144, 3, "2", f"262144 words are 32768 regions, {many}"),
                                      (4194312, 3, "2", "4194312 words, where 1 to 4194304 are allowed"),
                                      (131072, 17, "1", "region log 17, where 3 to 16 are allowed"),
                                      (131072, 17, "2", "region log 17, where 3 to 16 are allowed"),
                                      (8388616, 3, "", "8388616 words are 1048577 regions, where 1048576 are the most"),
                                      (8388616, 3, "3", "8388616 words are 1048577 regions, where 1048576 are the most")):
        for flag in ("", " --atomic"):
            asked = f" --version {version}" if version else ""
            wish = f"--words {words} --region-log {log} --live 50 --seed 1{asked}{flag}"
            tried.run(f"generate out {wish}", Answer(2, err=f"pcompact: {said}\n", made={"out": None}))
            tried.run(f"generate kept {wish}", Answer(2, err=f"pcompact: {said}\n"))
    if tried.read("kept") != OLD:
        tried.is_wrong("a file is changed by a wish that no image has")


def try_chosen_versions(tried: Tried) -> None:
    """Without a version a heap has version 2 where that allows it, and else version 3; words and roots are the same."""
    for words, log, version in ((131072, 3, 2), (131080, 3, 3), (131072, 16, 2), (131072, 17, 3), (1048576, 20, 3)):
        wish = f"--words {words} --region-log {log} --live 40 --seed 11"
        tried.run(f"generate out {wish}", Answer(0, None))
        tried.run(f"generate asked {wish} --version {version}", Answer(0, None))
        chosen = tried.read("out")
        if chosen != tried.read("asked") or not chosen.startswith(b"PCHEAP0%d" % version):
            tried.is_wrong(f"generate {wish}: the image begins with {chosen[:8]!r}")
        tried.run("collect out collected --workers 4", Answer(0, None))
        tried.run("verify out collected", Answer(0, "same\n"))
    tried.run("generate small --words 4096 --region-log 5 --live 70 --seed 3 --version 3", Answer(0, None))
    tried.run("generate usual --words 4096 --region-log 5 --live 70 --seed 3", Answer(0, None))
    small, usual = tried.read("small"), tried.read("usual")
    if (small[:8], small[8:]) != (b"PCHEAP03", usual[8:]):
        tried.is_wrong("a heap in version 3 differs from that in version 2 by more than its magic")


def try_files(tried: Tried) -> None:
    """Files that can't be made or written, and ones that are there."""
    image, line = generated(PLAIN)
    (tried.folder / "a_folder").mkdir()
    tried.run(f"generate a_folder {SMALL}", fault(FAULT_13))
    tried.run(f"generate nothing/out {SMALL}", fault(FAULT_13))
    tried.run(f"generate nothing/out {SMALL} --verbose", Answer(1, err=(
        "pcompact: fault 13 input or output\npcompact: file IMAGE nothing/out\npcompact: call open\n"
        "pcompact: reason no such file or folder\n")))
    tried.run(f"generate /dev/full {SMALL}", fault(FAULT_13))
    tried.run(f"generate /dev/full {SMALL} --atomic", Answer(2, err="pcompact: not a regular file\n"))
    with FULL.open("wb") as full:
        tried.run(f"generate out {SMALL}", fault(FAULT_13, {"out": model.encode(image)}), stdout=full)
        tried.run(f"generate out {SMALL} --atomic", fault(FAULT_13, {"out": None}), stdout=full)
    tried.write("longer", model.encode(image) + OLD)
    tried.run(f"generate longer {SMALL}", Answer(0, line))
    if tried.read("longer") != model.encode(image):
        tried.is_wrong("a file is not emptied before a heap is written")


def rows() -> list[tuple[str, str, str]]:
    """The rows of docs/GENERATE.md: words, line, and checksum."""
    text = (TOP / "docs" / "GENERATE.md").read_text()
    return re.findall(r"^\| `(generate [^`]*)` \| `([^`]*)` \| `([0-9a-f]{64})` \|$", text, re.MULTILINE)


def try_rows(tried: Tried) -> None:
    """The rows of the page, by their checksums."""
    if len(rows()) != 3:
        tried.is_wrong("docs/GENERATE.md hasn't three rows with checksums")
    for words, line, checksum in rows():
        tried.run(words, Answer(0, f"{line}\n"))
        if hashlib.sha256(tried.read("heap.pcheap")).hexdigest() != checksum:
            tried.is_wrong(f"{words}: another checksum")


GROUPS = (try_wishes, try_shares, try_words, try_no_heaps, try_chosen_versions, try_files, try_rows)

if __name__ == "__main__":
    sys.exit(try_groups(GROUPS))
