#!/usr/bin/env python3
"""Runs the built program as its users do, right and wrong: on words, images, schedules and devices of every kind.

Each case gives the words and what the program must answer: its status, standard output, standard error, and what then
stands in the files that it makes. The forms are those of docs/FORMATS.md and docs/COMMANDS.md. A text of usage that is given
without its end must begin so; every other one is compared whole. Ends with status 1 where an answer is another one.

usage: tests/cli/test_commands.py [PROGRAM]
"""
import dataclasses
import os
import pathlib
import re
import sys

# Finds the package `tests` from any folder, and writes nothing beside its modules.
sys.dont_write_bytecode = True
sys.path.insert(0, str(pathlib.Path(__file__).resolve().parents[2]))
from tests.models.image import FILLER, header
from tests.support.cases import (BASE, COLLECTED, COMPACTED, LIVE, MOVED, MOVED_LIVE, ONE_WORKER, REPORT, SMALL,
                                 TWO_WORKERS, WORDS, head, image, later, rooted, try_collected, try_groups, try_refused, try_upgraded,
                                 upgraded, with_word)
from tests.support.program import Answer, Tried, differs, fault, outside, usage

FULL = pathlib.Path("/dev/full")
FAULT_13 = "13 input or output"

BOARD_REPORT = "".join(f"region {r} claims 1 completions 1\n" for r in range(3)) + "all settled\n"
# Region 0 takes words of 1, and 1 of 2. Worker 0 makes two calls, then worker 1 one, and so on, while they have any.
BOARD_STEPS = """\
worker 0 claims 0: yes
worker 0 drains 1 into 0: last, nothing is pending on 1
worker 1 claims 0: no, claimed already
worker 0 completes 0: ok
worker 0 settles 0: more
worker 1 claims 1: yes
worker 0 claims 1: no, claimed already
worker 0 claims 2: no, pending: 2 into 1
worker 1 drains 2 into 1: last, nothing is pending on 2
worker 1 completes 1: ok
worker 1 settles 1: more
worker 1 claims 2: yes
worker 1 completes 2: ok
worker 1 settles 2: all
"""

def try_words(tried: Tried) -> None:
    """Words that are no command."""
    tried.run("", usage("error: 'pcompact' requires a subcommand but one was not provided\n"))
    tried.run("sweep", usage("error: unrecognized subcommand 'sweep'\n"))
    tried.run("help sweep", usage("error: unrecognized subcommand 'sweep'\n"))
    tried.run("--quiet", usage("error: unexpected argument '--quiet' found\n"))
    tried.run("board twice", usage("error: unexpected argument 'twice' found\n"))
    missing = "error: the following required arguments were not provided:\n"
    for words, names in (("summary", ["<IMAGE>"]), ("order", ["<IMAGE>"]), ("verify base", ["<AFTER>"]),
                         ("replay base", ["<SCHEDULE>"]), ("collect base", ["<OUT>"]),
                         ("collect --workers 2", ["<IMAGE>", "<OUT>"]), ("upgrade base", ["<OUT>"]), ("upgrade", ["<IMAGE>", "<OUT>"]),
                         ("record base out --workers 2", ["<SCHEDULE>"])):
        tried.run(words, usage(missing + "".join(f"  {name}\n" for name in names)))
    for words in ("summary base", "collect base out --workers 2", "record base out schedule --workers 2",
                  "replay base schedule", "verify base base", "upgrade base out"):
        tried.run(f"{words} more", usage("error: unexpected argument 'more' found\n"))
    tried.run([b"summary", b"\xff"], Answer(2, err="pcompact: an argument isn't UTF-8 text\n"))
    tried.run(["summary", ""], fault(FAULT_13))


def try_flags(tried: Tried) -> None:
    """The options that take no value: where they may stand, and that they change nothing that goes well."""
    collected = Answer(0, COLLECTED, made={"out": COMPACTED})
    recorded = Answer(0, COLLECTED, made={"out": COMPACTED, "schedule": ONE_WORKER.encode()})
    rooted_base = Answer(0, "roots 4\n", made={"out": upgraded(BASE)})
    for flags in ("--verbose", "--atomic", "--atomic --verbose"):
        tried.run(f"collect {flags} base out --workers 2", collected)
        tried.run(f"collect base out --workers 2 {flags}", collected)
        tried.run(f"record base {flags} out schedule --workers 1", recorded)
        tried.run(f"upgrade base out {flags}", rooted_base)
    tried.run("summary --verbose base", Answer(0, REPORT))
    tried.run("replay base schedule --verbose", Answer(0, ONE_WORKER + "finished\n"))
    tried.write("after", COMPACTED)
    tried.run("verify base --verbose after", Answer(0, "same\n"))
    tried.run("summary base --verbose --verbose",
              usage("error: the argument '--verbose' cannot be used multiple times\n"))
    tried.run("board --verbose", usage("error: unexpected argument '--verbose' found\n"))
    for words in ("summary base", "replay base schedule", "verify base after"):
        tried.run(f"{words} --atomic", usage("error: unexpected argument '--atomic' found\n"))
    for words in ("summary base", "replay base schedule", "upgrade base out", "board"):
        tried.run(f"{words} --stats", usage("error: unexpected argument '--stats' found\n"))


def try_help(tried: Tried) -> None:
    tried.run("--version", Answer(0, "pcompact 0.3.0\n"))
    tried.run("-V", Answer(0, "pcompact 0.3.0\n"))
    for words in ("--help", "help", "-h", "board --help", "summary --help", "collect --help", "record --help",
                  "replay --help", "verify --help", "upgrade --help", "import --help", "generate --help", "order --help",
                  "text --help", "assemble --help", "map --help", "timeline --help",
                  "help help"):
        tried.run(words, Answer(0, None))


def try_board(tried: Tried) -> None:
    tried.run("board", Answer(0, BOARD_REPORT))
    tried.run("board --steps", Answer(0, BOARD_STEPS + BOARD_REPORT))
    tried.run("board --steps --steps", usage("error: the argument '--steps' cannot be used multiple times\n"))
    tried.run("summary base --steps", usage("error: unexpected argument '--steps' found\n"))


def try_workers(tried: Tried) -> None:
    nothing = {"out": None}
    for workers in ("1", "2", "4", "64"):
        tried.run(f"collect base out --workers {workers}", Answer(0, COLLECTED, made={"out": COMPACTED}))
        for turns in ("", " --turns"):
            tried.run(f"record base out schedule --workers {workers}{turns}", Answer(0, COLLECTED, made={"out": COMPACTED}))
            tried.run("replay base schedule", Answer(0, tried.read("schedule").decode() + "finished\n"))
    tried.run("collect --workers=2 base out", Answer(0, COLLECTED, made={"out": COMPACTED}))
    # Without a number there is a worker for each processor.
    for words in ("collect base out", "collect base out -w 2", "collect -w64 base out", "collect base out -vw=3", "record base out schedule",
                  "record base out schedule -vw 1"):
        tried.run(words, Answer(0, COLLECTED, made={"out": COMPACTED}))
    one = {min(os.sched_getaffinity(0))}
    for words, workers in (("collect base out", 1), ("collect base out -w 3", 3)):
        told = re.compile(rf"(?s).*\npcompact: threads {workers}\n.*")
        tried.run(f"{words} --stats", Answer(0, COLLECTED, told), preexec_fn=lambda: os.sched_setaffinity(0, one))
    tried.run("collect base out -w 2 --workers 2", usage("error: the argument '--workers <n>' cannot be used multiple times\n"))
    for workers in ("0", "65", "4294967295", "4294967296"):
        tried.run(f"collect base out --workers {workers}", outside(workers, nothing))
        tried.run(f"collect base nothing/out -w {workers} --atomic", outside(workers, nothing))
        tried.run(f"record base out schedule --workers {workers}", outside(workers, nothing))
        tried.run(f"record base out schedule --workers {workers} --turns", outside(workers, nothing))
    for workers, said in (("abc", "invalid value 'abc' for '--workers <n>': a whole number is wanted"),
                          ("1.5", "invalid value '1.5' for '--workers <n>': a whole number is wanted"),
                          ("", "invalid value '' for '--workers <n>': cannot parse integer from empty string"),
                          ("-1", "unexpected argument '-1' found")):
        words = ["collect", "base", "out", "--workers", workers]
        tried.run(words, dataclasses.replace(usage(f"error: {said}"), made=nothing))
    tried.run("collect base out --workers", usage("error: a value is required for '--workers <n>' but none was supplied\n"))
    tried.run("collect base out --workers 2 --workers 2",
              usage("error: the argument '--workers <n>' cannot be used multiple times\n"))


IMAGES = [
    (b"", "1 truncated header"),
    (BASE[:31], "1 truncated header"),
    (BASE[:32], "5 truncated body"),
    (BASE[:287], "5 truncated body"),
    (BASE[:319], "5 truncated body"),
    (BASE + b"\0", "10 trailing bytes"),
    (BASE + BASE, "10 trailing bytes"),
    (b"#!/bin/sh\n" * 4, "2 magic"),
    (image(WORDS, [0, 5, 5, 20]), "6 live order at index 2"),
    (image(WORDS, [0, 5, 12, 32]), "6 live order at index 3"),
    (image(WORDS, [0, 3, 12, 20]), "7 header at 3"),
    (image(with_word(WORDS, 23, 10), LIVE), "9 reference at 20 field 2"),
    (image(with_word(WORDS, 23, 10), LIVE) + b"\0", "9 reference at 20 field 2"),
    (image(with_word(SMALL, 2, header(2, 0)), [0, 2, 3]), "8 overlap at 3"),
    (image(with_word(SMALL, 2, header(2, 0)), [0, 2, 3]) + b"\0", "8 overlap at 3"),
    (head(7, 0), "4 length"),
    (head(8, 0), "5 truncated body"),
    (head(8, 4_194_305), "4 length"),
    (head(2, 0), "3 region log"),
    (head(17, 0), "3 region log"),
    (head(16, 0), "5 truncated body"),
    (head(16, 0, words=4_259_840), "4 length"),
    *[(head(log, count, magic=b"PCHEAP04"), "2 magic") for log, count in ((2, 0), (7, 0), (8, 0), (8, 4_194_305), (17, 0))],
    (head(3, 0, words=0), "4 length"),
    (head(3, 0, words=12), "4 length"),
    (head(16, 0, words=1 << 63), "4 length"),
]
# A byte of the base image, the one that stands there instead, and the fault, also where a byte follows the image.
CHANGED = [
    (7, 0x34, "2 magic"),
    (8, 2, "3 region log"),
    (16, 31, "4 length"),
    (304, 5, "6 live order at index 2"),
    (296, 3, "7 header at 3"),
    (32, 2, "7 header at 0"),
    (32, 6, "8 overlap at 5"),
    (40, 33, "9 reference at 0 field 0"),
]


LARGEST = 2 ** 64 - 1
MALICIOUS = [
    (with_word(WORDS, 0, 0x0100_0000_ffff_ffff), "7 header at 0"),
    (with_word(WORDS, 12, header(2, 2)), "7 header at 12"),
    (with_word(WORDS, 12, header(2, 0, FILLER)), "7 header at 12"),
    (with_word(WORDS, 12, header(0, 0)), "7 header at 12"),
    (with_word(WORDS, 20, header(13, 8)), "7 header at 20"),
    (with_word(WORDS, 1, 33), "9 reference at 0 field 0"),
    (with_word(WORDS, 6, LARGEST), "9 reference at 5 field 0"),
]
NOTHING_MOVES = """prefix 24 top 30
       0        0        6        0        0        -
       1        1        2        8        0        -
       2        0        4       16        0        -
       3        6        0       24        0        3
"""


def try_images(tried: Tried) -> None:
    """Images that are none, under each command that reads one."""
    for text, said in IMAGES:
        try_refused(tried, text, said)
    for at, byte, said in CHANGED:
        text = BASE[:at] + bytes([byte]) + BASE[at + 1:]
        try_refused(tried, text, said)
        try_refused(tried, text + b"\0", said)


def try_malicious_images(tried: Tried) -> None:
    for words, said in MALICIOUS:
        try_refused(tried, image(words, LIVE), said)
        try_refused(tried, image(words, LIVE) + b"\0", said)


def try_beginnings(tried: Tried) -> None:
    """Each beginning of the base image."""
    for length in range(len(BASE)):
        said = "1 truncated header" if length < 32 else "5 truncated body"
        tried.write("image", BASE[:length])
        tried.run("summary image", fault(said))
        tried.run("collect image out --workers 2", fault(said, {"out": None}))
        tried.run("upgrade image out", fault(said, {"out": None}))


def try_which_fault(tried: Tried) -> None:
    """Of two files that are wrong, the first one's fault decides. A file that can't be opened comes before both."""
    for first, said in IMAGES[::4]:
        for second, _ in IMAGES[1::4]:
            tried.write("first", first)
            tried.write("second", second)
            tried.run("verify first second", fault(said))
            tried.run("replay first second", fault(said))
        tried.run("verify first nothing", fault(FAULT_13))
        tried.run("replay first nothing", fault(FAULT_13))
        tried.run("collect first nothing/out --workers 1", fault(FAULT_13))


BASE_OF_8 = [header(3, 2), 6, 12, header(2, 0, FILLER), 0, header(4, 1), 10, 107, 108, header(2, 1), 1, header(10, 8),
             12, 0, 6, 10, 1, 0, 12, 6, 129] + [0] * 11
FILLED_BASE = [*WORDS[:3], header(2, 0, FILLER), 0, *WORDS[5:9], header(3, 0, FILLER), 0, 0, *WORDS[12:14],
               header(6, 0, FILLER), *[0] * 5, *WORDS[20:30], 0, 0]


def plain(words: int, objects: dict[int, int], fillers: dict[int, int] | None = None, dead: int = 999) -> list[int]:
    """Words with objects of these sizes at these addresses, zeros after their headers, and fillers."""
    made = [dead] * words
    for a, size in objects.items():
        made[a:a + size] = [header(size, 0), *[0] * (size - 1)]
    for a, size in (fillers or {}).items():
        made[a:a + size] = [header(size, 0, FILLER), *[0] * (size - 1)]
    return made


# Words, live list, allowance; the figures; words and live list afterwards.
COLLECTIONS = [
    (WORDS, LIVE, 0, COLLECTED, MOVED, MOVED_LIVE),
    (WORDS, LIVE, 1, COLLECTED, MOVED, MOVED_LIVE),
    (WORDS, LIVE, 2, "prefix 8 top 21 filled 3\n", BASE_OF_8, [0, 5, 9, 11]),
    (WORDS, LIVE, LARGEST, "prefix 24 top 30 filled 4\n", FILLED_BASE, LIVE),
    (SMALL, [0, 2, 3], 0, "prefix 0 top 7 filled 1\n",
     [header(1, 0), header(1, 0), header(5, 2), 2, 3, 106, 107, 0], [0, 1, 2]),
    (SMALL, [0, 2, 3], 1, "prefix 8 top 8 filled 1\n", with_word(SMALL, 1, header(1, 0, FILLER)), [0, 2, 3]),
    ([999] * 32, [], 0, "prefix 0 top 0 filled 0\n", [0] * 32, []),
    ([999] * 32, [], 5, "prefix 0 top 0 filled 0\n", [0] * 32, []),
    ([999] * 32, [], LARGEST, "prefix 0 top 0 filled 0\n", [0] * 32, []),
    (plain(32, {0: 32}), [0], 0, "prefix 32 top 32 filled 4\n", plain(32, {0: 32}), [0]),
    (plain(16, {0: 4, 10: 2}), [0, 10], 8, "prefix 8 top 10 filled 2\n",
     plain(16, {0: 4, 8: 2}, {4: 4}, dead=0), [0, 8]),
    (plain(24, {2: 2, 20: 3}), [2, 20], 14, "prefix 16 top 19 filled 3\n",
     plain(24, {2: 2, 16: 3}, {0: 2, 4: 12}, dead=0), [2, 16]),
    (plain(24, {2: 2, 20: 3}), [2, 20], 13, "prefix 8 top 11 filled 2\n",
     plain(24, {2: 2, 8: 3}, {0: 2, 4: 4}, dead=0), [2, 8]),
    (plain(32, {1: 20}), [1], 0, "prefix 0 top 20 filled 3\n", plain(32, {0: 20}, dead=0), [0]),
]


FIRST_STAYS = """prefix 8 top 21
       0        0        6        0        0        -
       1        1        2        8        0        1
       2        0        4       11        1        3
       3        6        0       15        2        -
"""
WHOLE = """prefix 32 top 32
       0        0        8        0        0        -
       1        8        0        8        0        -
       2        8        0       16        0        -
       3        8        0       24        0        -
"""
CROSSING = """prefix 0 top 20
       0        0        7        0        0        0
       1        8        0        7        1        1
       2        5        0       15        1        2
       3        0        0       20        0        -
"""
BARE_BASE = plain(32, {0: 3, 5: 4, 12: 2, 20: 10})

# Images, and what `summary` prints of them.
SUMMARIES = [
    (image(BARE_BASE, LIVE), REPORT),
    (image(BARE_BASE, LIVE, 1), REPORT),
    (image(BARE_BASE, LIVE, 2), FIRST_STAYS),
    (image(BARE_BASE, LIVE, LARGEST), NOTHING_MOVES),
    (rooted(BARE_BASE, [21, 13, 6, 1]), REPORT),
    (image(plain(32, {0: 32}), [0], 5), WHOLE),
    (image(plain(32, {1: 20}), [1]), CROSSING),
]


# Of the base heap by its allowance what `order` prints.
CHAINS = [
    (0, "chain 19 words 19 speedup 1.00 workers 1\n"),
    (1, "chain 19 words 19 speedup 1.00 workers 1\n"),
    (2, "chain 13 words 21 speedup 1.61 workers 2\n"),
    (LARGEST, "chain 8 words 30 speedup 3.75 workers 4\n"),
]


def try_collections(tried: Tried) -> None:
    """Collections of known heaps, in each version: with a root to each live object, the last one first."""
    for words, live, allowance, figures, new_words, new_live in COLLECTIONS:
        try_collected(tried, image(words, live, allowance), figures, image(new_words, new_live, allowance))
        roots, new_roots = ([1 + a for a in reversed(addresses)] for addresses in (live, new_live))
        try_collected(tried, rooted(words, roots, allowance), figures, rooted(new_words, new_roots, allowance))
    tried.run("summary base", Answer(0, REPORT))
    for text, said in SUMMARIES:
        tried.write("image", text)
        tried.run("summary image", Answer(0, said))
    tried.write("image", image(WORDS, []))
    tried.run("order image", Answer(0, "chain 0 words 0 speedup 1.00 workers 1\n"))
    tried.write("image", image(plain(800, {0: 800}), [0]))
    tried.run("order image", Answer(0, "chain 8 words 800 speedup 100.00 workers 64\n"))
    for allowance, said in CHAINS:
        tried.write("image", image(WORDS, LIVE, allowance))
        tried.run("order image", Answer(0, said))
        tried.run("order --verbose image", Answer(0, said))
    tried.write("image", image(WORDS, LIVE, LARGEST))
    tried.run("summary image", Answer(0, NOTHING_MOVES))


# Of an image of 2 MiB, in regions of 4 KiB, what is kept fits into the first two regions, and a live list follows.
SPARSE_WORDS, SPARSE_LOG, SPARSE_LIVE = 262_144, 9, range(1_000, 262_000, 9_000)
# On the disk a file has no more than what is written of it, in blocks of at most 64 KiB.
SPARSE_BYTES = 4 * 65_536


def room_on_disk(tried: Tried, name: str) -> int:
    return (tried.folder / name).stat().st_blocks * 512


def try_holes(tried: Tried) -> None:
    """The cleared regions of a regular file take no room on the disk, also where they did before."""
    with (tried.folder / "hole").open("wb") as file:
        file.truncate(8 * SPARSE_WORDS)
    if room_on_disk(tried, "hole"):
        print("files have no holes here, and whether cleared regions are holes is left out")
        return
    words = [7] * SPARSE_WORDS
    for a in SPARSE_LIVE:
        words[a:a + 20] = [header(20, 0), *range(19)]
    moved = [word for a in SPARSE_LIVE for word in words[a:a + 20]]
    moved += [0] * (SPARSE_WORDS - len(moved))
    live, new_live = list(SPARSE_LIVE), list(range(0, 20 * len(SPARSE_LIVE), 20))
    roots, new_roots = [1 + live[0], *(1 + a for a in live)], [1, *(1 + a for a in new_live)]
    line = f"prefix 0 top {20 * len(live)} filled 2\n"
    for before, after in ((image(words, live, log=SPARSE_LOG), image(moved, new_live, log=SPARSE_LOG)),
                          *((rooted(words, roots, log=SPARSE_LOG, version=version),
                             rooted(moved, new_roots, log=SPARSE_LOG, version=version)) for version in (2, 3))):
        tried.write("image", before)
        for command in ("collect image out --workers 2", "collect image out --workers 1 --atomic",
                        "record image out schedule --workers 2", "collect image image --workers 2 --atomic"):
            name = command.split()[2]
            tried.write("out", before)
            tried.run(command, Answer(0, line))
            tried.count += 1
            if tried.read(name) != after or room_on_disk(tried, name) > SPARSE_BYTES:
                tried.is_wrong(f"pcompact {command}: the file has other bytes, or takes {room_on_disk(tried, name)} on the disk")


def try_upgrades(tried: Tried) -> None:
    """Images as ones of version 2 and 3, which are collected alike."""
    tried.run("upgrade base out", Answer(0, "roots 4\n", made={"out": rooted(WORDS, [1, 6, 13, 21])}))
    tried.write("rooted", tried.read("out"))
    tried.run("upgrade rooted out", Answer(0, "roots 4\n", made={"out": tried.read("rooted")}))
    tried.run("collect rooted out --workers 2", Answer(0, COLLECTED, made={"out": rooted(MOVED, [1, 4, 8, 10])}))
    tried.write("image", image([999] * 32, []))
    tried.run("upgrade image out", Answer(0, "roots 0\n", made={"out": rooted([999] * 32, [])}))
    tried.write("image", BASE[:319])
    for to in ("", " --to 2", " --to 3"):
        tried.run(f"upgrade image out{to}", fault("5 truncated body", {"out": None}))
    for words, live, allowance, *_ in COLLECTIONS:
        try_upgraded(tried, image(words, live, allowance))
    try_version_3(tried)


def try_version_3(tried: Tried) -> None:
    """An image of version 3, which is no earlier one, and what `--to` takes."""
    large = rooted(WORDS, [1, 6, 13, 21], version=3)
    tried.write("rooted", rooted(WORDS, [1, 6, 13, 21]))
    for name in ("base", "rooted"):
        tried.run(f"upgrade {name} large --to 3", Answer(0, "roots 4\n", made={"large": large}))
    tried.run("upgrade large out --to 3", Answer(0, "roots 4\n", made={"out": large}))
    for to in ("", " --to 2"):
        tried.run(f"upgrade large out{to}", later({"out": None}))
        tried.run(f"upgrade large out{to} --atomic", later({"out": None}))
        tried.run(f"upgrade large large --atomic{to}", later({}))
        tried.run(f"upgrade large out{to} --verbose",
                  Answer(1, err="pcompact: version 3 can't be upgraded to version 2\npcompact: file IMAGE large\n", made={"out": None}))
    if tried.read("large") != large:
        tried.is_wrong("a refused upgrade in place changes the image")
    for to, said in (("1", "1 is not in 2..=3"), ("4", "4 is not in 2..=3"), ("two", "a whole number is wanted")):
        answer = usage(f"error: invalid value '{to}' for '--to <v>': {said}\n")
        tried.run(f"upgrade base out --to {to}", dataclasses.replace(answer, made={"out": None}))


def try_verdicts(tried: Tried) -> None:
    shape = [image(MOVED[:24], MOVED_LIVE), image(MOVED + [0] * 8, MOVED_LIVE), image(MOVED, []),
             image(MOVED, MOVED_LIVE, allowance=2), image(MOVED, MOVED_LIVE, log=4)]
    rows = [(COMPACTED, Answer(0, "same\n")), (BASE, differs("word 1")),
            (image(with_word(MOVED, 18, 130), MOVED_LIVE), differs("word 18")),
            (image(with_word(MOVED, 31, 1), MOVED_LIVE), differs("word 31"))]
    for text, answer in rows + [(text, differs("shape")) for text in shape]:
        tried.write("after", text)
        tried.run("verify base after", answer)
    words = [header(3, 0), header(1, 0), *[0] * 6]
    tried.write("before", image(words, [0]))
    tried.write("after", image(words, [1]))
    tried.run("verify before after", differs("live 0"))
    tried.run("verify base base", differs("word 1"))


MALFORMED = [
    ("", 1), ("schedule 1 0\n", 1), ("schedule 1 65\n", 1), ("schedule 2 1\n", 1), ("schedule 1  1\n", 1),
    ("schedule 01 1\n", 1), ("schedule 1 1", 1), ("schedule 1 1\r\n", 1), ("\ufeffschedule 1 1\n", 1),
    ("schedule 1 1\n1 poll ?\n", 2), ("schedule 1 1\n0 copy 0 0 ok\n", 2), ("schedule 1 1\n0 claim 0 open0\n", 2),
    ("schedule 1 1\n0 claim 4294967296 ?\n", 2), ("schedule 1 1\n 0 poll ?\n", 2), ("schedule 1 1\n0 poll\n", 2),
    ("schedule 1 1\n\n", 2), ("schedule 1 1\n0 claim 1 yes\n0 poll\n", 3), (ONE_WORKER + "0 poll all", 21),
    (ONE_WORKER.replace("0 claim 2 yes", "0 claim 2 Yes"), 16),
]
REFUSED = [
    ("schedule 1 1\n0 claim 0 yes\n0 claim 1 yes\n", 3), ("schedule 1 1\n0 claim 0 yes\n0 drain 0 1 last\n", 3),
    ("schedule 1 1\n0 claim 0 yes\n0 copy 0 9 ok\n", 3), ("schedule 1 2\n0 claim 0 yes\n1 claim 0 yes\n", 3),
    ("schedule 1 2\n0 claim 0 yes\n0 copy 0 8 ok\n1 drain 0 1 last\n", 4),
    ("schedule 1 2\n0 claim 0 yes\n0 copy 0 8 ok\n0 drain 0 1 last\n0 drain 0 1 last\n", 5),
    ("schedule 1 2\n0 claim 0 yes\n0 copy 0 8 ok\n0 complete 0 ok\n", 4),
    ("schedule 1 2\n0 claim 0 yes\n0 copy 0 8 ok\n0 drain 0 1 last\n0 copy 0 1 ok\n", 5),
    ("schedule 1 2\n0 claim 0 yes\n0 copy 0 7 ok\n0 drain 0 1 ?\n", 4),
    ("schedule 1 2\n0 claim 4 ?\n", 2), ("schedule 1 2\n0 settle 0 more\n", 2),
]
# Schedules, each with all replies, that are followed to their end and leave regions unsettled.
ANSWERED = [
    "schedule 1 1\n0 claim 0 yes\n0 claim 1 no\n",
    "schedule 1 1\n0 claim 1 no\n0 claim 0 yes\n0 look 3 out2\n0 copy 0 6 ok\n0 poll more\n",
    """schedule 1 2
0 look 1 open1
0 look 3 out2
0 claim 3 no
0 claim 0 yes
1 claim 0 no
0 copy 0 8 ok
0 drain 0 1 last
1 claim 1 yes
1 copy 1 8 ok
1 drain 1 3 notlast
0 look 3 out1
1 drain 1 2 last
1 complete 1 ok
1 settle 1 more
""",
]


def exchanged(text: str, first: int) -> str:
    """The schedule with this line, from 1, after the next one."""
    lines = text.splitlines(keepends=True)
    lines[first - 1:first + 1] = reversed(lines[first - 1:first + 1])
    return "".join(lines)


def try_refused_lines(tried: Tried, rows: list[tuple[str, int]]) -> None:
    """Schedules that are refused, each with its least bad line."""
    for text, line in rows:
        tried.write("schedule", text)
        tried.run("replay base schedule", fault(f"14 schedule line {line}"))


def try_replayed(tried: Tried, text: str, end: str) -> None:
    """A schedule that is allowed and has all its replies."""
    tried.write("schedule", text)
    tried.run("replay base schedule", Answer(0, f"{text}{end}\n"))


def try_malformed_schedules(tried: Tried) -> None:
    try_refused_lines(tried, MALFORMED)
    tried.write("schedule", BASE)
    tried.run("replay base schedule", fault("14 schedule line 1"))


def try_refused_schedules(tried: Tried) -> None:
    try_refused_lines(tried, REFUSED)
    # One worker completes or settles what another one fills.
    for event in ("complete", "settle"):
        before, _ = ANSWERED[-1].split(f"1 {event} 1")
        try_refused_lines(tried, [(f"{before}0 {event} 1 ?\n", before.count("\n") + 1)])
    # A schedule of another image: there region 0 gets 7 words.
    tried.write("schedule", ONE_WORKER)
    tried.write("image", image(SMALL, [0, 2, 3]))
    tried.run("replay image schedule", fault("14 schedule line 4"))


def try_edited_schedules(tried: Tried) -> None:
    """The recorded schedule with lines exchanged, joined or left out, and one of two workers."""
    try_refused_lines(tried, [(exchanged(ONE_WORKER, 4), 4), (exchanged(ONE_WORKER, 5), 5)])
    for text in (ONE_WORKER, TWO_WORKERS, ONE_WORKER.replace("0 copy 0 6 ok\n0 copy 0 2 ok\n", "0 copy 0 8 ok\n"),
                 exchanged(ONE_WORKER, 7), exchanged(ONE_WORKER, 11)):
        try_replayed(tried, text, "finished")
    try_replayed(tried, ONE_WORKER.replace("0 settle 2 all\n", ""), "open")


def try_open_replies(tried: Tried) -> None:
    """Lines without a reply get the one that is right."""
    for text in ANSWERED:
        for asked in (text, re.sub("(?m)^([01] .*) .*$", r"\1 ?", text)):
            tried.write("schedule", asked)
            tried.run("replay base schedule", Answer(0, f"{text}open\n"))


def try_files(tried: Tried) -> None:
    """Files that aren't there, can't be read or written, or are named twice."""
    tried.write("schedule", ONE_WORKER)
    (tried.folder / "folder").mkdir()
    # Each read of the last one fails.
    for name in ("nothing", "folder", "nothing/image", "base/image", "/proc/self/mem"):
        made = {} if name in ("folder", "/proc/self/mem") else {"out": None}
        tried.run(f"summary {name}", fault(FAULT_13))
        tried.run(f"order {name}", fault(FAULT_13))
        tried.run(f"collect {name} out --workers 1", fault(FAULT_13, made))
        tried.run(f"upgrade {name} out", fault(FAULT_13, made))
        tried.run(f"replay {name} schedule", fault(FAULT_13))
        tried.run(f"replay base {name}", fault(FAULT_13))
        tried.run(f"verify {name} base", fault(FAULT_13))
        tried.run(f"verify base {name}", fault(FAULT_13))
    for name in ("folder", "nothing/out"):
        tried.run(f"collect base {name} --workers 1", fault(FAULT_13))
        tried.run(f"upgrade base {name}", fault(FAULT_13))
        tried.run(f"record base out {name} --workers 1", fault(FAULT_13, {"out": None}))
        tried.run(f"record base {name} schedule2 --workers 1", fault(FAULT_13, {"schedule2": None}))
    same = Answer(2, err="pcompact: same file\n")
    for words in ("collect base base --workers 1", "record base base s --workers 1", "record base out base --workers 1",
                  "record base s s --workers 1", "replay base base", "upgrade base base"):
        tried.run(words, same)
    if tried.read("base") != BASE:
        tried.is_wrong("an image that was named twice is changed")


def try_kept(tried: Tried) -> None:
    """Files to write are as they were where IMAGE is none or is of a later version, or SCHEDULE can't be written."""
    tried.write("base", BASE)
    rows = [(text, words) for text in (b"", b"\x89PNG\r\n", BASE[:100], BASE + b"\0")
            for words in ("collect image out --workers 2", "record image out schedule --workers 2", "upgrade image out")]
    rows += [(upgraded(BASE, 3), "upgrade image out"), (BASE, "record image out nothing/schedule --workers 1")]
    for text, words in rows:
        tried.write("image", text)
        for name in ("out", "schedule"):
            tried.write(name, "yesterday's")
        tried.run(words, Answer(1, err=re.compile("pcompact: .*\n")))
        if (tried.read("out"), tried.read("schedule")) != (b"yesterday's", b"yesterday's"):
            tried.is_wrong(f"pcompact {words}: a file is another")


# Commands that make OUT, and find then that they can't fill it.
UNFILLED = {
    "import cut OUT": Answer(1, err="pcompact: byte 0: this is no heap dump of version 1.0.1 or 1.0.2\n"),
    "assemble wrong OUT": Answer(1, err="pcompact: TEXT line 1: expected `heap version 1`, `heap version 2` or `heap version 3`\n"),
    "generate OUT --words 65 --live 50 --region-log 3 --seed 1":
        Answer(2, err="pcompact: 65 words are not a multiple of the 8 words of a region\n"),
    "map cut --svg OUT": fault("5 truncated body"),
    "timeline base wrong --svg OUT": fault("14 schedule line 1"),
    "timeline base wrong --html OUT": fault("14 schedule line 1"),
}


def try_unfilled(tried: Tried) -> None:
    """A file that was made and can't be filled goes again, also where it was made through a link, which stays."""
    tried.write("cut", BASE[:319])
    tried.write("wrong", "x\n")
    (tried.folder / "to_made").symlink_to("made")
    for words, answer in UNFILLED.items():
        for name in ("made", "to_made"):
            tried.run(words.replace("OUT", name), dataclasses.replace(answer, made={"made": None}))
        if os.readlink(tried.folder / "to_made") != "made":
            tried.is_wrong(f"pcompact {words}: the link is another")


def try_names(tried: Tried) -> None:
    """One file under two names: another spelling, a link, a way through another folder."""
    same = Answer(2, err="pcompact: same file\n")
    not_made = dataclasses.replace(same, made={"new": None})
    tried.write("image", BASE)
    tried.write("kept", "kept")
    (tried.folder / "aside").mkdir()
    (tried.folder / "hard").hardlink_to(tried.folder / "image")
    (tried.folder / "soft").symlink_to("image")
    (tried.folder / "to_new").symlink_to("new")
    for name in ("./image", ".//image", "aside/../image", str(tried.folder / "image"), "hard", "soft"):
        tried.run(f"collect image {name} --workers 1", same)
        tried.run(f"collect {name} image --workers 1", same)
        tried.run(f"upgrade image {name}", same)
        tried.run(f"replay image {name}", same)
        tried.run(f"record image {name} new --workers 1", not_made)
        tried.run(f"record image new {name} --workers 1", not_made)
        tried.run(f"verify image {name}", differs("word 1"))
    for name in ("./new", "aside/../new", "to_new"):
        tried.run(f"record image new {name} --workers 1", not_made)
    for name in ("./kept", "aside/../kept"):
        tried.run(f"record image kept {name} --workers 1", same)
    if tried.read("image") != BASE or tried.read("kept") != b"kept":
        tried.is_wrong("a file that was named twice is changed")
    # A file that is longer than what is written into it, and one that a link is to make.
    tried.write("kept", COMPACTED + BASE)
    tried.run("collect image ./kept --workers 1", Answer(0, COLLECTED))
    tried.run("collect image to_new --workers 1", Answer(0, COLLECTED, made={"new": COMPACTED}))
    if tried.read("kept") != COMPACTED:
        tried.is_wrong("a file is not emptied before it is written")
    # Where the schedule can't be opened, nothing is lost.
    tried.run("record image kept nothing/schedule --workers 1", fault(FAULT_13))
    if tried.read("kept") != COMPACTED:
        tried.is_wrong("a file is emptied before all are open")


def try_unreadable(tried: Tried) -> None:
    """Files that the user may not read or write."""
    tried.write("secret", BASE)
    (tried.folder / "secret").chmod(0)
    who = {"user": "nobody"} if os.geteuid() == 0 else {}
    tried.run("summary secret", fault(FAULT_13), **who)
    tried.run("collect base secret --workers 1", fault(FAULT_13), **who)
    tried.run("upgrade secret out", fault(FAULT_13, {"out": None}), **who)
    (tried.folder / "secret").chmod(0o600)


def try_devices(tried: Tried) -> None:
    """Pipes, and devices that take nothing."""
    collected = Answer(0, COLLECTED, made={"out": COMPACTED})
    tried.run("summary /dev/stdin", Answer(0, REPORT), input=BASE)
    tried.run("order /dev/stdin", Answer(0, CHAINS[0][1]), input=BASE)
    tried.run("collect /dev/stdin out --workers 2", collected, input=BASE)
    tried.run("upgrade /dev/stdin out", Answer(0, "roots 4\n", made={"out": upgraded(BASE)}), input=BASE)
    tried.run("verify base /dev/stdin", Answer(0, "same\n"), input=COMPACTED)
    tried.run("replay base /dev/stdin", Answer(0, ONE_WORKER + "finished\n"), input=ONE_WORKER.encode())
    tried.run("summary /dev/stdin", fault("10 trailing bytes"), input=BASE + b"\0" * 100_000)
    tried.run("collect base /dev/full --workers 2", fault(FAULT_13))
    tried.run("upgrade base /dev/full", fault(FAULT_13))
    tried.run("record base out /dev/full --workers 1", fault(FAULT_13, {"out": COMPACTED}))
    tried.write("dead", image([7] * 64, []))
    tried.run("record dead out /dev/full --workers 1", fault(FAULT_13, {"out": image([0] * 64, [])}))
    tried.run("record base /dev/full schedule --workers 1", fault(FAULT_13, {"schedule": None}))
    with FULL.open("wb") as full:
        for words in ("board", "--help", "--version", "summary base", "replay base schedule2", "verify base after"):
            tried.write("schedule2", ONE_WORKER)
            tried.write("after", COMPACTED)
            tried.run(words, fault(FAULT_13), stdout=full)
        tried.run("collect base out --workers 2", fault(FAULT_13, {"out": COMPACTED}), stdout=full)
        tried.run("upgrade base out", fault(FAULT_13, {"out": upgraded(BASE)}), stdout=full)
        tried.run("summary nothing", Answer(1), stderr=full)
        tried.run("sweep", Answer(2), stderr=full)
        tried.run("board", dataclasses.replace(Answer(0), out=None), stderr=full)


GROUPS = (try_words, try_flags, try_help, try_board, try_workers, try_images, try_malicious_images, try_beginnings, try_which_fault,
          try_collections, try_holes, try_upgrades, try_verdicts, try_malformed_schedules, try_refused_schedules,
          try_edited_schedules, try_open_replies, try_files, try_kept, try_unfilled, try_names, try_unreadable, try_devices)

if __name__ == "__main__":
    sys.exit(try_groups(GROUPS))
