#!/usr/bin/env python3
"""Collects seeded heaps in memory by the C library, each with a live list and with roots, beside the model of
tests/models, and such heaps with words, lists and sizes that are slightly wrong.

Each is collected by copy and in place, and half of them by 1, 2, 4 or 16 threads too. After a collection the memory must be
the model's compaction, and after a fault, which must be the model's, as it was. The caller, serve.c, runs under the sanitizers
for addresses and undefined behaviour; for a few heaps it runs under valgrind, which sees the accesses of the library too, where
that is there.

usage: tests/c/test_seeded.py [SEED [COUNT]]      (needs a C compiler)
"""
import dataclasses
import pathlib
import random
import shutil
import struct
import subprocess
import sys
import tempfile
from collections.abc import Callable

# Finds the package `tests` from any folder, and writes nothing beside its modules.
sys.dont_write_bytecode = True
sys.path.insert(0, str(pathlib.Path(__file__).resolve().parents[2]))
from tests.fuzz.generators import ImageMaker, LimitMaker, as_version_1
from tests.fuzz.mutations import ImageSpoiler
from tests.models.image import Collection, Fault, Image, allows, decode, encode, upgraded
from tests.support.library import built_library, compiler

HEAPS = 1_000
# One of so many heaps is at the limits of regions, unless it has more words than this.
SELDOM = 50
MANY_WORDS = 1 << 18
# How many heaps valgrind sees.
WATCHED = 40
# By how many threads each second heap is collected too, in turn.
THREADS = (1, 2, 4, 16)
SUMMARY, COLLECT, COLLECT_IN_PLACE, COLLECT_BY_THREADS, COLLECT_IN_PLACE_BY_THREADS = range(5)
# The call, whether the heap has roots, its region log, a gap, its allowance, and how many words, numbers and threads.
REQUEST = struct.Struct("<IIIIQQQQ")
REPLY = struct.Struct("<IIIIQQQ64s")
SANITIZED = ["-g", "-fsanitize=address,undefined", "-fno-sanitize-recover"]
VALGRIND = ["valgrind", "-q", "--leak-check=full", "--error-exitcode=3"]


@dataclasses.dataclass
class Reply:
    """What a call answers, and what it leaves in memory."""
    returned: int
    number: int
    field: int
    place: int
    figures: str
    text: str
    words: list[int]
    tail: list[int]


class Caller:
    """A program of C that makes calls, and how often it was asked and wrong."""

    def __init__(self, words: list):
        self.process = subprocess.Popen(words, stdin=subprocess.PIPE, stdout=subprocess.PIPE)
        self.count = 0
        self.wrong = 0

    def read(self, size: int) -> bytes:
        got = self.process.stdout.read(size)
        if len(got) != size:
            raise EOFError("the caller has ended before its answer")
        return got

    def call(self, kind: int, image: Image, threads: int) -> Reply:
        words, tail = len(image.words), len(image.tail)
        asked = REQUEST.pack(kind, image.version != 1, image.region_log, 0, image.allowance, words, tail, threads)
        self.process.stdin.write(asked + struct.pack(f"<{words + tail}Q", *image.words, *image.tail))
        self.process.stdin.flush()
        returned, number, field, filled, place, prefix, top, text = REPLY.unpack(self.read(REPLY.size))
        left = list(struct.unpack(f"<{words + tail}Q", self.read(8 * (words + tail))))
        return Reply(returned, number, field, place, f"prefix {prefix} top {top} filled {filled}\n",
                     text.partition(b"\0")[0].decode(), left[:words], left[words:])

    def check(self, what: str, wanted: dict, reply: Reply) -> None:
        """Compares an answer with what is wanted of it."""
        self.count += 1
        found = [name for name, it in wanted.items() if getattr(reply, name) != it]
        if found:
            self.wrong += 1
            print(f"{what}: " + "; ".join(f"{it} is {getattr(reply, it)!r} and not {wanted[it]!r}"[:600] for it in found))

    def try_heap(self, what: str, image: Image, threads: int) -> None:
        """A heap, valid or not, by each call for its kind, and by this number of threads if it isn't 0."""
        kinds = [COLLECT, COLLECT_IN_PLACE]
        if image.version == 1:
            kinds.append(SUMMARY)
        if threads:
            kinds += [COLLECT_BY_THREADS, COLLECT_IN_PLACE_BY_THREADS]
        same = {"words": image.words, "tail": image.tail}
        try:
            collection = Collection(decode(encode(image)))
        except Fault as fault:
            number = int(str(fault).split()[0])
            wanted = {"returned": number, "number": number, "text": str(fault), "figures": "prefix 0 top 0 filled 0\n", **same}
            for kind in kinds:
                self.check(f"{what}, call {kind}", wanted, self.call(kind, image, threads))
            return
        after = collection.compaction()
        wanted = {"returned": 0, "number": 0, "text": "", "field": 0, "place": 0, "figures": collection.figures()}
        for kind in kinds:
            left = same if kind == SUMMARY else {"words": after.words, "tail": after.tail}
            self.check(f"{what}, call {kind}", {**wanted, **left}, self.call(kind, image, threads))

    def end(self) -> None:
        self.process.stdin.close()
        self.count += 1
        if self.process.wait(60) != 0:
            self.wrong += 1
            print(f"the caller ends with status {self.process.returncode}")


def spoiled(chance: random.Random, image: Image) -> Image:
    """The heap with words, a list or settings that are slightly wrong, mostly."""
    it = ImageSpoiler(chance, image)
    changes = [it.spoil_header, it.spoil_reference, it.spoil_word, it.spoil_tail, it.spoil_order, it.lay_inside]
    for change in chance.choices(changes, k=chance.choice([1, 1, 2])):
        change()
    log, words = image.region_log, it.words
    if chance.randrange(8) == 0:
        log = chance.choice([0, 2, log - 1, log + 1, 16, 17, 20, 21, 2 ** 32 - 1])
    if chance.randrange(8) == 0:
        words = words[:chance.choice([0, 1, len(words) - 1, len(words) // 2])]
    return dataclasses.replace(image, region_log=log, words=words, tail=it.tail)


def make_heap(chance: random.Random) -> Image:
    """A valid heap."""
    if chance.randrange(SELDOM) == 0:
        image = LimitMaker(chance).image()
        if len(image.words) <= MANY_WORDS:
            return image
    return ImageMaker(chance).image()


def both_kinds(image: Image) -> list[Image]:
    """The heap with roots, and with a live list."""
    rooted = upgraded(image, 3)
    return [rooted, as_version_1(image)] if allows(1, image.region_log, len(image.words)) else [rooted]


def try_heaps(caller: Caller, seed: str, count: int) -> None:
    for number in range(count):
        chance = random.Random(f"{seed} {number}")
        threads = THREADS[number // 2 % len(THREADS)] if number % 2 else 0
        for image in both_kinds(make_heap(chance)):
            what = f"heap {number} of seed {seed}, version {image.version}"
            caller.try_heap(what, image, threads)
            caller.try_heap(f"{what}, spoiled", spoiled(chance, image), threads)


def build(source: str, program: pathlib.Path, library: pathlib.Path, options: list[str]) -> pathlib.Path:
    """The program of one file of this folder, with the library."""
    subprocess.run([compiler(), "-std=c11", "-pthread", *options, f"-I{library}", f"tests/c/{source}", library / "libpcompact.a", "-o", program],
                   cwd=pathlib.Path(__file__).resolve().parents[2], check=True)
    return program


def run(source: str, kind: type[Caller], try_some: Callable[[Caller, str, int], None], most: int, watched: int) -> int:
    """Tries heaps of the seed and number that the command line gives by callers of this kind. Returns the exit status."""
    seed = sys.argv[1] if len(sys.argv) > 1 else "c"
    count = int(sys.argv[2]) if len(sys.argv) > 2 else most
    library, why = built_library()
    if not library or not compiler():
        print(why or "there is no C compiler")
        print("0 passed, 0 failed, 1 skipped")
        return 0
    with tempfile.TemporaryDirectory() as folder:
        room = pathlib.Path(folder)
        callers = [(kind([build(source, room / "checked", library, SANITIZED)]), count)]
        if shutil.which("valgrind"):
            callers.append((kind([*VALGRIND, build(source, room / "plain", library, ["-O1"])]), min(count, watched)))
        for caller, heaps in callers:
            try_some(caller, seed, heaps)
            caller.end()
    wrong = sum(caller.wrong for caller, _ in callers)
    print(f"{sum(caller.count for caller, _ in callers) - wrong} passed, {wrong} failed")
    return 1 if wrong else 0


if __name__ == "__main__":
    sys.exit(run("serve.c", Caller, try_heaps, HEAPS, WATCHED))
