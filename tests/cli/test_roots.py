#!/usr/bin/env python3
"""Runs commands over images with roots, of versions 2 and 3, and over all versions of one heap.

usage: tests/cli/test_roots.py [PROGRAM]
"""
import array
import pathlib
import random
import sys

# Finds the package `tests` from any folder, and writes nothing beside its modules.
sys.dont_write_bytecode = True
sys.path.insert(0, str(pathlib.Path(__file__).resolve().parents[2]))
from tests.models.heap_text import text_of
from tests.models.image import FILLER, FRONT, Collection, Fault, decode, header
from tests.support.cases import (COLLECTED, COMPACTED, LIVE, MOVED, ONE_WORKER, REPORT, SMALL, TWO_WORKERS, WORDS, head,
                                 image, rooted, try_collected, try_groups, try_refused, with_word)
from tests.support.program import Answer, Tried, differs, fault, outside

LARGEST = 2 ** 64 - 1
ROOTED_BASE = rooted(WORDS, [21, 0])
ROOTED_COMPACTED = rooted(MOVED, [10, 0])

# Nothing refers to the last object of the base heap.
THREE = with_word(WORDS, 2, 0)
THREE_MOVED = [header(3, 2), 4, 0, header(4, 1), 8, 107, 108, header(2, 1), 1] + [0] * 23
THREE_COLLECTED = "prefix 0 top 9 filled 2\n"
THREE_REPORT = """prefix 0 top 9
       0        0        6        0        0        0
       1        1        2        6        1        1
       2        0        0        9        0        -
       3        0        0        9        0        -
"""
NOTHING_COLLECTED = "prefix 0 top 0 filled 0\n"
NOTHING_REPORT = "prefix 0 top 0\n" + "".join(f"{r:>8}{0:>9}{0:>9}{0:>9}{0:>9}        -\n" for r in range(4))
# An overlap at 3.
CROSSED = with_word(SMALL, 2, header(2, 0))
# An object in the first words of another one.
INNER = [header(3, 0), header(4, 0), *[0] * 6]
# Two objects that refer to each other, and two that refer to themselves.
LINKS = [header(2, 1), 5, header(2, 1), 3, header(2, 1), 1, header(2, 1), 7]
# Data of an object, a dead object and a filler contain words that look like headers and references.
LIKE_OBJECTS = [header(3, 1), 7, header(9, 8), header(2, 1), 99, header(1, 0, FILLER), header(2, 0), header(1, 0)]


def of_one_region(top: int) -> tuple[str, str]:
    """Figures and report of a region of 8 words, all or some of which live and slide up to this address."""
    prefix, source = (8, "-") if top == 8 else (0, 0)
    columns = "".join(f"{column:>9}" for column in (0, top, 0, 0, source))
    return f"prefix {prefix} top {top} filled 1\n", f"prefix {prefix} top {top}\n{0:>8}{columns}\n"


# Words and roots; figures and report; words and roots afterwards.
COLLECTIONS = [
    (WORDS, [21, 0], COLLECTED, REPORT, MOVED, [10, 0]),
    (THREE, [1], THREE_COLLECTED, THREE_REPORT, THREE_MOVED, [1]),
    (WORDS, [], NOTHING_COLLECTED, NOTHING_REPORT, [0] * 32, []),
    (WORDS, [0], NOTHING_COLLECTED, NOTHING_REPORT, [0] * 32, [0]),
    (WORDS, [0] * 5, NOTHING_COLLECTED, NOTHING_REPORT, [0] * 32, [0] * 5),
    # Repeated; in no order; as many as words.
    (WORDS, [21, 21, 0, 21, 1], COLLECTED, REPORT, MOVED, [10, 10, 0, 10, 1]),
    (WORDS, [13, 21, 1, 6], COLLECTED, REPORT, MOVED, [8, 10, 1, 4]),
    (WORDS, [13, 1, 13, 0, 6, 21, 21], COLLECTED, REPORT, MOVED, [8, 1, 8, 0, 4, 10, 10]),
    (WORDS, [0] * 32, NOTHING_COLLECTED, NOTHING_REPORT, [0] * 32, [0] * 32),
    (WORDS, [0] * 31 + [21], COLLECTED, REPORT, MOVED, [0] * 31 + [10]),
    (WORDS, [21] * 32, COLLECTED, REPORT, MOVED, [10] * 32),
    # Dead words that look like objects: one side by side with live ones, one over two, one that refers to live ones.
    (with_word(WORDS, 3, header(1, 0)), [21], COLLECTED, REPORT, MOVED, [10]),
    (with_word(WORDS, 4, header(9, 0)), [21], COLLECTED, REPORT, MOVED, [10]),
    ([*WORDS[:9], header(3, 2), 6, 21, *WORDS[12:]], [21], COLLECTED, REPORT, MOVED, [10]),
    # Objects that overlap, and one whose header is no header, but nobody refers to them.
    (with_word(with_word(THREE, 29, header(1, 0)), 20, header(13, 8)), [1], THREE_COLLECTED, THREE_REPORT, THREE_MOVED,
     [1]),
    (INNER, [1], *of_one_region(3), [header(3, 0), header(4, 0), *[0] * 6], [1]),
    (INNER, [2], *of_one_region(4), [header(4, 0), *[0] * 7], [1]),
    (CROSSED, [3, 1], *of_one_region(3), [header(1, 0), header(2, 0), header(5, 2), *[0] * 5], [2, 1]),
    # An object with references out of the heap, to which nobody refers.
    (with_word(with_word(THREE, 23, 33), 24, LARGEST), [6], THREE_COLLECTED, THREE_REPORT, THREE_MOVED, [4]),
    (LIKE_OBJECTS, [1], *of_one_region(5), [header(3, 1), 4, header(9, 8), header(2, 0), header(1, 0), 0, 0, 0], [1]),
    (LINKS, [1], *of_one_region(4), [header(2, 1), 3, header(2, 1), 1, 0, 0, 0, 0], [1]),
    (LINKS, [3], *of_one_region(2), [header(2, 1), 1, *[0] * 6], [1]),
    (LINKS, [5, 7, 3], *of_one_region(8), LINKS, [5, 7, 3]),
]


def try_roots(tried: Tried) -> None:
    for words, roots, figures, report, new_words, new_roots in COLLECTIONS:
        for version in (2, 3):
            after = rooted(new_words, new_roots, version=version)
            try_collected(tried, rooted(words, roots, version=version), figures, after)
            tried.run("summary image", Answer(0, report))
    for allowance in (1, 2, 5, 7, 2 ** 64 - 1):
        for roots in ([], [0]):
            nothing = rooted([0] * 32, roots, allowance)
            try_collected(tried, rooted(WORDS, roots, allowance), NOTHING_COLLECTED, nothing)
    # The last word alone.
    words = with_word(WORDS, 31, header(1, 0))
    try_collected(tried, rooted(words, [32]), "prefix 0 top 1 filled 1\n", rooted([header(1, 0)] + [0] * 31, [1]))


REFUSED = [
    (rooted(WORDS, [4]), "7 header at 3"),
    (rooted(WORDS, [4, 33]), "17 root at index 1"),
    (rooted(CROSSED, [3, 4]), "8 overlap at 3"),
    (rooted(WORDS, [0, 34, 33]), "17 root at index 1"),
    (rooted(WORDS, [LARGEST]), "17 root at index 0"),
    (rooted(WORDS, [32]), "7 header at 31"),
    (rooted(WORDS, [21] * 33), "4 length"),
    (rooted(WORDS, [0] * 33), "4 length"),
    (ROOTED_BASE + b"\0", "10 trailing bytes"),
    (ROOTED_BASE[:32], "5 truncated body"),
    (head(8, 0, magic=b"PCHEAP02"), "5 truncated body"),
    (head(7, 0, magic=b"PCHEAP02"), "4 length"),
    (head(8, 4_194_305, magic=b"PCHEAP02"), "4 length"),
    (head(17, 0, magic=b"PCHEAP02"), "3 region log"),
    (head(2, 0, magic=b"PCHEAP02"), "3 region log"),
    (head(16, 0, magic=b"PCHEAP02"), "5 truncated body"),
    (head(16, 0, words=4_259_840, magic=b"PCHEAP02"), "4 length"),
    (head(2, 0, magic=b"PCHEAP00"), "2 magic"),
    (head(20, 0, words=2 ** 36, magic=b"PCHEAP03"), "5 truncated body"),
    (head(20, 0, words=2 ** 36 + 2 ** 20, magic=b"PCHEAP03"), "4 length"),
    (head(21, 0, words=2 ** 36, magic=b"PCHEAP03"), "3 region log"),
    (head(20, 0, words=2 ** 36, magic=b"PCHEAP03") + bytes(range(100)), "5 truncated body"),
    (head(16, 0, words=2 ** 36 + 2 ** 16, magic=b"PCHEAP03"), "4 length"),
    (head(3, 0, words=32, magic=b"PCHEAP03"), "5 truncated body"),
    (head(3, 32, words=32, magic=b"PCHEAP03"), "5 truncated body"),
    (head(2, 0, words=32, magic=b"PCHEAP03"), "3 region log"),
    (head(20, 0, words=0, magic=b"PCHEAP03"), "4 length"),
    (head(3, 0, words=2 ** 23, magic=b"PCHEAP03"), "5 truncated body"),
    (head(3, 0, words=2 ** 23 + 8, magic=b"PCHEAP03"), "4 length"),
    (head(2, 0, magic=b"PCHEAP03"), "3 region log"),
    (head(16, 2 ** 32 - 1, words=2 ** 36, magic=b"PCHEAP03"), "5 truncated body"),
    (head(15, 0, words=2 ** 35, magic=b"PCHEAP03"), "5 truncated body"),
    (head(15, 0, words=2 ** 35 + 2 ** 15, magic=b"PCHEAP03"), "4 length"),
    (head(20, 0, words=2 ** 19, magic=b"PCHEAP03"), "4 length"),
    (head(3, 33, words=32, magic=b"PCHEAP03"), "4 length"),
    (head(3, 0, words=0, magic=b"PCHEAP03"), "4 length"),
    (rooted(WORDS, [4, 33], version=3), "17 root at index 1"),
    (rooted(WORDS, [32], version=3), "7 header at 31"),
    (rooted(WORDS, [21], version=3) + b"\0", "10 trailing bytes"),
    (head(2, 0, magic=b"PCHEAP12"), "2 magic"),
    (rooted(with_word(WORDS, 1, 34), [1]), "9 reference at 0 field 0"),
    (rooted(with_word(WORDS, 2, LARGEST), [1]), "9 reference at 0 field 1"),
    (rooted(with_word(WORDS, 6, LARGEST), [21]), "9 reference at 5 field 0"),
    (rooted(with_word(WORDS, 12, header(2, 2)), [21]), "7 header at 12"),
    (rooted(with_word(WORDS, 12, header(2, 0, kind=2)), [21]), "7 header at 12"),
    (rooted(with_word(WORDS, 20, header(13, 8)), [21]), "7 header at 20"),
    # A member without a sound header, reached on two ways; and the least of two such.
    (rooted(with_word(with_word(WORDS, 1, 4), 13, 4), [21]), "7 header at 3"),
    (rooted(WORDS, [15, 4, 11]), "7 header at 3"),
    # An object in the last words of another one.
    (rooted(with_word(WORDS, 29, header(1, 0)), [30, 21]), "8 overlap at 29"),
    # Of two conditions that hold, the one that is tested first.
    (ROOTED_BASE[:8] + head(2, 33, words=0)[8:], "3 region log"),
    (rooted(WORDS, [33] * 33)[:300], "4 length"),
    (rooted(WORDS, [33])[:-1], "5 truncated body"),
    (rooted(WORDS, [33]) + b"\0", "17 root at index 0"),
    (rooted(WORDS, [4, 33]) + b"\0", "17 root at index 1"),
    (rooted(WORDS, [4]) + b"\0", "7 header at 3"),
    (rooted(CROSSED, [3, 4]) + b"\0", "8 overlap at 3"),
    (rooted(CROSSED, [0] * 9), "4 length"),
    (rooted(CROSSED, [0] * 9) + b"\0", "4 length"),
    (rooted(with_word(WORDS, 23, 33), [21]), "9 reference at 20 field 2"),
    (rooted(with_word(WORDS, 23, 33), [21]) + b"\0", "9 reference at 20 field 2"),
    (rooted(with_word(CROSSED, 3, header(5, 5)), [3, 4]), "7 header at 3"),
    (rooted(with_word(CROSSED, 4, 99), [3, 4]), "8 overlap at 3"),
    (rooted(with_word(WORDS, 2, 99), [1]) + b"\0", "9 reference at 0 field 1"),
    (rooted(with_word(with_word(WORDS, 2, 99), 12, header(2, 2)), [1]), "7 header at 12"),
]
# What is refused alike where a byte follows.
UNSOUND = [
    (rooted(WORDS, [21, 0, LARGEST, 33]), "17 root at index 2"),
    (rooted(WORDS, [32]), "7 header at 31"),
    (rooted(WORDS, [33] * 33), "4 length"),
    (rooted(WORDS, [15, 4, 32]), "7 header at 3"),
    # Reached from a root, and from two objects.
    (rooted(with_word(with_word(WORDS, 1, 4), 6, 4), [4, 21, 4]), "7 header at 3"),
    # Behind one with a reference out of the heap.
    (rooted(with_word(with_word(WORDS, 23, 33), 12, 0), [21]), "7 header at 12"),
    (rooted(with_word(with_word(WORDS, 23, 33), 24, LARGEST), [21]), "9 reference at 20 field 2"),
    (rooted(with_word(with_word(WORDS, 23, 33), 1, 33), [21, 1]), "9 reference at 0 field 0"),
    (rooted(INNER, [2, 1]), "8 overlap at 1"),
    (rooted(CROSSED, [4]), "8 overlap at 3"),
]


def try_refused_roots(tried: Tried) -> None:
    for text, said in [*REFUSED, *UNSOUND, *((text + b"\0", said) for text, said in UNSOUND)]:
        try_refused(tried, text, said)
    for length in range(len(ROOTED_BASE)):
        said = "1 truncated header" if length < FRONT.size else "5 truncated body"
        tried.write("image", ROOTED_BASE[:length])
        tried.run("summary image", fault(said))
        tried.run("collect image out --workers 2", fault(said, {"out": None}))


def try_rooted_verdicts(tried: Tried) -> None:
    shapes = [rooted(MOVED, [10]), rooted(MOVED, [10, 0, 0]), rooted(MOVED, [0, 0]), rooted(MOVED[:24], [10, 0]),
              rooted(MOVED, [10, 0], allowance=2), rooted(MOVED, [10, 0], log=4), COMPACTED]
    rows = [(ROOTED_COMPACTED, Answer(0, "same\n")), (ROOTED_BASE, differs("word 1")),
            (rooted(with_word(MOVED, 18, 130), [10, 0]), differs("word 18")),
            (rooted(with_word(MOVED, 18, 130), [0, 10]), differs("word 18")),
            (rooted(with_word(MOVED, 18, 130), [10, 1]), differs("word 18")),
            (rooted(MOVED, [0, 10]), differs("root 0")), (rooted(MOVED, [10, 10]), differs("root 1")),
            (rooted(MOVED, [10, 4]), differs("root 1")), (rooted(MOVED, [4, 0]), differs("root 0")),
            (rooted(MOVED, [10, 1]), differs("root 1")), (rooted(MOVED, [4, 10]), differs("root 0"))]
    tried.write("before", ROOTED_BASE)
    for text, answer in rows + [(text, differs("shape")) for text in shapes]:
        tried.write("after", text)
        tried.run("verify before after", answer)
    tried.write("after", ROOTED_COMPACTED)
    tried.run("verify base after", differs("shape"))
    # As many objects, but others: the live list is reported before the roots.
    words = [header(3, 0), header(1, 0), *[0] * 6]
    for roots, others in (([1], [2]), ([0, 1], [0, 2])):
        tried.write("before", rooted(words, roots))
        tried.write("after", rooted(words, others))
        tried.run("verify before after", differs("live 0"))
    # Two versions of one heap without live objects differ in nothing but that.
    tried.write("before", image([0] * 8, []))
    tried.write("after", rooted([0] * 8, []))
    tried.run("verify before after", differs("shape"))
    tried.run("verify after before", differs("shape"))
    # So do versions 2 and 3.
    tried.write("before", ROOTED_BASE)
    tried.write("after", rooted(MOVED, [10, 0], version=3))
    tried.run("verify before after", differs("shape"))


def try_version_3(tried: Tried) -> None:
    """A small image of version 3 under the commands that collect nothing: only its version differs from version 2."""
    small = rooted(WORDS, [21, 0], version=3)
    collection, text = Collection(decode(small)), text_of(decode(small))
    tried.write("small", small)
    tried.write("rooted", ROOTED_BASE)
    tried.write("schedule", TWO_WORKERS)
    tried.run("summary small", Answer(0, REPORT))
    tried.run("order small", Answer(0, collection.order()))
    tried.run("map small --after --letters --width 8", Answer(0, collection.map(8, True)))
    tried.run("text small", Answer(0, text))
    tried.write("lines", text)
    tried.run("assemble lines made", Answer(0, "words 32 roots 2 live 4\n", made={"made": small}))
    for flag in ("--svg drawing", "--html page"):
        made = []
        for name in ("rooted", "small"):
            (tried.folder / "heap").write_bytes(tried.read(name))
            tried.run(f"timeline heap schedule {flag}", Answer(0, None))
            made.append(tried.read(flag.split()[1]))
        if made[0] != made[1]:
            tried.is_wrong(f"timeline {flag} of versions 2 and 3 differs")
    tried.run("replay small schedule", Answer(0, TWO_WORKERS + "finished\n"))


def try_rooted_schedules(tried: Tried) -> None:
    """All versions of a heap have the same summary, and one schedule with one worker."""
    tried.write("rooted", ROOTED_BASE)
    tried.run("summary rooted", Answer(0, REPORT))
    made = {"out": ROOTED_COMPACTED, "schedule": ONE_WORKER.encode()}
    tried.run("record rooted out schedule --workers 1", Answer(0, COLLECTED, made=made))
    tried.run("record base out schedule --workers 1", Answer(0, COLLECTED, made=made | {"out": COMPACTED}))
    schedules = []
    for text in (image(WORDS, LIVE, 2), rooted(WORDS, [21, 0], 2), rooted(WORDS, [21, 0], 2, version=3)):
        tried.write("image", text)
        tried.run("record image out schedule --workers 1", Answer(0, "prefix 8 top 21 filled 3\n"))
        schedules.append(tried.read("schedule"))
    if len(set(schedules)) != 1:
        tried.is_wrong("one worker records another schedule where the heap has roots")
    for schedule in (ONE_WORKER, TWO_WORKERS):
        tried.write("schedule", schedule)
        tried.run("replay rooted schedule", Answer(0, schedule + "finished\n"))
    tried.write("schedule", "schedule 1 1\n0 claim 0 yes\n0 claim 1 ?\n")
    tried.run("replay rooted schedule", Answer(0, "schedule 1 1\n0 claim 0 yes\n0 claim 1 no\nopen\n"))
    tried.write("schedule", "schedule 1 1\n0 claim 1 yes\n")
    tried.run("replay rooted schedule", fault("14 schedule line 2"))
    # Nothing lives, and nothing is to be done.
    tried.write("schedule", "schedule 1 1\n")
    for roots in ([], [0]):
        tried.write("image", rooted(WORDS, roots))
        tried.run("replay image schedule", Answer(0, "schedule 1 1\nfinished\n"))
    # The schedule of a heap of which less lives.
    tried.write("image", rooted(THREE, [1]))
    tried.write("schedule", ONE_WORKER)
    tried.run("replay image schedule", fault("14 schedule line 10"))
    for workers in (0, 65):
        tried.run(f"collect rooted out --workers {workers}", outside(workers, {"out": None}))


def in_bytes(words: list[int], roots: list[int], log: int = 9) -> bytes:
    front = FRONT.pack(b"PCHEAP02", log, len(roots), len(words), 0)
    return front + array.array("Q", words).tobytes() + array.array("Q", roots).tobytes()


def try_many(tried: Tried) -> None:
    """A million objects of two words, linked in random order, and a million to which one array refers."""
    count = 2 ** 20
    order = random.Random(1).sample(range(count), count)
    following = [0] * count
    for i, j in zip(order, order[1:]):
        following[i] = j + 1
    words, moved = [999] * (3 * count), [0] * (3 * count)
    words[1::3] = moved[0:2 * count:2] = [header(2, 1)] * count
    words[2::3] = [3 * j - 1 if j else 0 for j in following]
    moved[1:2 * count:2] = [2 * j - 1 if j else 0 for j in following]
    figures = f"prefix 0 top {2 * count} filled {2 * count // 512}\n"
    try_one_root(tried, in_bytes(words, [3 * order[0] + 2]), figures, in_bytes(moved, [2 * order[0] + 1]))
    many = [header(count, count - 1), *range(count + 2, 3 * count, 2)]
    words = many + [999, header(1, 0)] * count
    moved = [many[0], *range(count + 1, 2 * count), *[header(1, 0)] * (count - 1)]
    figures = f"prefix {count} top {2 * count - 1} filled {2 * count // 512}\n"
    try_one_root(tried, in_bytes(words, [1]), figures, in_bytes(moved + [0] * (count + 1), [1]))


def try_one_root(tried: Tried, text: bytes, figures: str, after: bytes) -> None:
    """An image with one root, which two threads mark, and one alone."""
    tried.write("image", text)
    tried.run("collect image out --workers 2", Answer(0, figures, made={"out": after}))
    tried.run("upgrade image again", Answer(0, "roots 1\n", made={"again": text}))


# What stands at even addresses of a small heap, mostly headers of pairs; and at odd ones and among the roots, mostly references
# to even addresses.
EVEN = [header(2, 1)] * 9 + [header(2, 0), header(4, 3), header(4, 2), header(3, 1), header(4, 1), header(1, 0), 0]
ODD = [0, 1, 3, 5, 7, 9, 11, 13, 15, 1, 5, 9, 13, 7, 4, 17]


def try_small(tried: Tried) -> None:
    """Heaps of 16 words, of which many are none, beside the model."""
    chance = random.Random(1)
    for _ in range(1_500):
        words = [chance.choice(some) for some in (EVEN, ODD) * 8]
        text = rooted(words, chance.choices(ODD, k=chance.randint(1, 4)))
        tried.write("image", text)
        try:
            answer = Answer(0, text_of(decode(text)))
        except Fault as first:
            answer = fault(str(first))
        tried.run("text image", answer)


GROUPS = (try_roots, try_refused_roots, try_rooted_verdicts, try_version_3, try_rooted_schedules, try_many, try_small)

if __name__ == "__main__":
    sys.exit(try_groups(GROUPS))
