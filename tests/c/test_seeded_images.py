#!/usr/bin/env python3
"""Calls the functions of the C library that redirect references, compare, encode and decode on seeded heaps and images, valid
and slightly wrong, beside the model of tests/models.

Each answer must be the model's, and whatever a call isn't to write must stay as it was. The caller, serve_images.c, runs
under the sanitizers for addresses and undefined behaviour; for a few heaps it runs under valgrind, where that is there.

usage: tests/c/test_seeded_images.py [SEED [COUNT]]      (needs a C compiler)
"""
import dataclasses
import pathlib
import random
import re
import struct
import sys

# Finds the package `tests` from any folder, and writes nothing beside its modules.
sys.dont_write_bytecode = True
sys.path.insert(0, str(pathlib.Path(__file__).resolve().parents[2]))
from tests.c.test_seeded import Caller, both_kinds, make_heap, run, spoiled
from tests.fuzz.generators import LARGEST, as_version_1
from tests.fuzz.mutations import ImageSpoiler
from tests.models.image import Collection, Fault, Image, allows, decode, encode, upgraded, verdict

HEAPS = 300
# How many heaps valgrind sees.
WATCHED = 20
NEW_ADDRESSES, NEW_ADDRESSES_ROOTED, VERIFY, ENCODE, ENCODE_ROOTED, DECODE, DECODE_ROOTED = range(7)
DIFFERENCES = {"shape": 1, "word": 2, "live": 3, "root": 4}
# What stands in a list or in bytes before a call writes there.
JUNK, JUNK_BYTE = 0x5555_5555_5555_5555, b"\x55"
REQUEST = struct.Struct("<IIQ5Q")
# What is returned; a fault; a verdict and a heap, each behind its own fault; a text.
REPLY = struct.Struct("<Q IIQ 16x IIQ 16x I4x I4xQ QQ 64s")


@dataclasses.dataclass
class Given:
    """What a call is given, and what it leaves."""
    words: list[int] = dataclasses.field(default_factory=list)
    tail: list[int] = dataclasses.field(default_factory=list)
    references: list[int] = dataclasses.field(default_factory=list)
    before: bytes = b""
    after: bytes = b""

    def parts(self) -> list[bytes]:
        numbers = [struct.pack(f"<{len(them)}Q", *them) for them in (self.words, self.tail, self.references)]
        return [*numbers, self.before, self.after]

    def counts(self) -> list[int]:
        return [len(it) for it in (self.words, self.tail, self.references, self.before, self.after)]


@dataclasses.dataclass
class Reply:
    """What a call answers, and what it leaves."""
    returned: int
    text: str
    # The number, the field and the place.
    fault: tuple[int, int, int]
    verdict: tuple[int, int, int]
    heap: tuple[int, ...]
    left: Given


NO_VERDICT = (0, 0, 0)
NO_HEAP = (0, 0, 0, 0, 0)


def numbers_of(text: bytes) -> list[int]:
    return list(struct.unpack(f"<{len(text) // 8}Q", text))


def particulars(text: str) -> tuple[int, int, int]:
    """The number, the field and the place that the text of a fault has."""
    number, place, field = [*map(int, re.findall(r"\d+", text)), 0, 0, 0][:3]
    return number, field, place


def decoded(text: bytes) -> tuple[Image | None, str]:
    """The image with these bytes, or none and the text of the fault."""
    try:
        return decode(text), ""
    except Fault as fault:
        return None, str(fault)


class ImageCaller(Caller):
    """A program of C that makes the calls on images."""

    def ask(self, call: int, given: Given, log: int = 0, allowance: int = 0) -> Reply:
        self.process.stdin.write(REQUEST.pack(call, log, allowance, *given.counts()) + b"".join(given.parts()))
        self.process.stdin.flush()
        returned, *numbers, text = REPLY.unpack(self.read(REPLY.size))
        left = [self.read(len(part)) for part in given.parts()]
        return Reply(returned, text.partition(b"\0")[0].decode(), tuple(numbers[:3]), tuple(numbers[3:6]), tuple(numbers[6:]),
                     Given(*map(numbers_of, left[:3]), *left[3:]))

    def expect(self, what: str, reply: Reply, left: Given, fault: str = "", **wanted: object) -> None:
        """Compares an answer with the model's. What isn't named is 0."""
        none = {"returned": 0, "verdict": NO_VERDICT, "heap": NO_HEAP}
        self.check(what, {**none, "text": fault, "fault": particulars(fault), "left": left, **wanted}, reply)

    def try_addresses(self, what: str, image: Image, references: list[int]) -> None:
        """A heap, valid or not, with references of its host."""
        given = Given(image.words, image.tail, references)
        call, version = (NEW_ADDRESSES, 1) if image.version == 1 else (NEW_ADDRESSES_ROOTED, 3)
        reply = self.ask(call, given, image.region_log, image.allowance)
        valid, fault = decoded(encode(dataclasses.replace(image, version=version)))
        good = {0, *(1 + a for a in valid.live())} if valid else set()
        strays = [i for i, reference in enumerate(references) if reference not in good]
        if valid and strays:
            fault = f"17 root at index {strays[0]}"
        if fault:
            self.expect(f"{what}, new_addresses", reply, given, fault, returned=particulars(fault)[0])
            return
        moved = list(map(Collection(valid).redirected, references))
        self.expect(f"{what}, new_addresses", reply, dataclasses.replace(given, references=moved))

    def try_comparison(self, what: str, before: bytes, after: bytes) -> None:
        reply = self.ask(VERIFY, given := Given(before=before, after=after))
        for place, text in enumerate((before, after), 1):
            _, fault = decoded(text)
            if fault:
                self.expect(f"{what}, verify", reply, given, fault, verdict=(place, 0, 0))
                return
        difference, _, at = (verdict(decode(before), decode(after)) or "").partition(" ")
        self.expect(f"{what}, verify", reply, given, returned=int(not difference),
                    verdict=(0, DIFFERENCES.get(difference, 0), int(at or 0)))

    def try_encoding(self, what: str, image: Image, spare: int) -> None:
        """With more bytes than needed, or fewer, by this number."""
        call, version = (ENCODE, 1) if image.version == 1 else (ENCODE_ROOTED, 2)
        if image.version != 1 and not allows(2, image.region_log, len(image.words)):
            version = 3
        text = encode(dataclasses.replace(image, version=version))
        room = JUNK_BYTE * max(len(text) + spare, 0)
        given = Given(image.words, image.tail, before=room)
        reply = self.ask(call, given, image.region_log, image.allowance)
        written = text + room[len(text):] if len(text) <= len(room) else room
        self.expect(f"{what}, encode", reply, dataclasses.replace(given, before=written), returned=len(text))

    def try_decoding(self, what: str, text: bytes, chance: random.Random) -> None:
        """Into lists of other lengths than needed, mostly."""
        image, fault = decoded(text)
        for call in (DECODE, DECODE_ROOTED):
            words, tail, version = [], [], 0
            if image:
                rooted = upgraded(image, max(image.version, 2))
                words, tail = image.words, (image.live() if call == DECODE else rooted.tail)
                version = image.version if call == DECODE else rooted.version
            rooms = [[JUNK] * max(len(them) + chance.choice([-1, 0, 0, 1, -len(them)]), 0) for them in (words, tail)]
            given = Given(*rooms, before=text)
            reply = self.ask(call, given)
            if not image:
                self.expect(f"{what}, decode {call}", reply, given, fault, returned=particulars(fault)[0])
                continue
            left = dataclasses.replace(given, words=put(words, rooms[0]), tail=put(tail, rooms[1]))
            self.expect(f"{what}, decode {call}", reply, left,
                        heap=(version, image.region_log, image.allowance, len(words), len(tail)))

    def try_heap(self, what: str, image: Image, chance: random.Random) -> None:
        """A valid heap by all calls."""
        text = encode(image)
        compaction = Collection(image).compaction()
        references = chance.choices([0, *(1 + a for a in image.live())], k=chance.randrange(9))
        self.try_addresses(what, image, references)
        self.try_addresses(f"{what}, a stray", image, [*references, chance.choice(strays_of(image))])
        self.try_comparison(what, text, encode(compaction))
        self.try_comparison(f"{what}, another", text, ImageSpoiler(chance, compaction).changed())
        self.try_encoding(what, image, chance.choice([0, 1, 9]))
        self.try_encoding(f"{what}, no room", image, chance.choice([-1, -8, -len(text)]))
        self.try_decoding(what, text, chance)

    def try_wrong_heap(self, what: str, image: Image, chance: random.Random) -> None:
        """The heap and its bytes, slightly wrong, mostly."""
        wrong = spoiled(chance, image)
        self.try_addresses(what, wrong, [1 + a for a in image.live()[:3]])
        self.try_encoding(what, wrong, 0)
        text, good = ImageSpoiler(chance, image).spoiled(), encode(image)
        self.try_decoding(what, text, chance)
        self.try_comparison(what, *chance.choice([(text, good), (good, text), (text, text)]))


def put(numbers: list[int], room: list[int]) -> list[int]:
    """A list into which these numbers were written, if it has room for them."""
    return numbers + room[len(numbers):] if len(numbers) <= len(room) else room


def strays_of(image: Image) -> list[int]:
    """Numbers that are no reference to a live object."""
    words, live = len(image.words), set(image.live())
    return [words + 1, LARGEST, *(1 + a for a in range(min(words, 64)) if a not in live)]


def try_heaps(caller: ImageCaller, seed: str, count: int) -> None:
    for number in range(count):
        chance = random.Random(f"images {seed} {number}")
        for image in both_kinds(make_heap(chance)):
            what = f"heap {number} of seed {seed}, version {image.version}"
            caller.try_heap(what, image, chance)
            caller.try_wrong_heap(f"{what}, spoiled", image, chance)


if __name__ == "__main__":
    sys.exit(run("serve_images.c", ImageCaller, try_heaps, HEAPS, WATCHED))
