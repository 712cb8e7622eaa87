"""Writes large heap dumps as a Java machine does, from a seed: version 1.0.2, ids of 8 bytes, classes with fields of their own
and from above, instances, arrays of references and of each primitive type, roots of each kind.

Objects lie in runs of one kind, with the gaps that a machine's larger headers leave, and wider ones between some runs. Runs
stand in the dump in another order than in memory. Some runs are dead: only dead objects lead there."""
import array
import dataclasses
import itertools
import pathlib
import random
import struct
from collections.abc import Iterator

from tests.support.dump_writer import ROOTS, SIZES, Writer

REFERENCE = 2
SEGMENT, END, TEXT, LOADED = 0x1C, 0x2C, 0x01, 0x02
INSTANCE, REFERENCES, PRIMITIVES = 0x21, 0x22, 0x23
FIRST_CLASS, CLASS_BYTES, CLASSES = 0x6_C000_0000, 1024, 24
FIRST_OBJECT = FIRST_CLASS + CLASSES * CLASS_BYTES
# Ids that no object has.
MISSING = (0xDEAD_0000, 0xDEAD_0008)
LONGEST_RUN, SEGMENT_BYTES = 500, 1 << 20
ROOT_COUNT = 500
# Of a hundred runs so many are dead, have a gap before them, and have one that an import drops.
DEAD, GAPS, DROPPED = 30, 20, 2


@dataclasses.dataclass(frozen=True)
class Kind:
    """What the records of objects of one kind have in common: tag, id and a serial number, then numbers, then the bytes of
    values, of which references stand side by side in rows: the place in the record, and how many."""
    head: struct.Struct
    tag: int
    numbers: tuple[int, ...]
    values: int
    rows: tuple[tuple[int, int], ...] = ()
    # The bytes that a machine has more than the image in front of each object.
    header: int = 8

    def width(self) -> int:
        return self.head.size + self.values

    def references(self) -> int:
        return sum(count for _, count in self.rows)

    def stride(self) -> int:
        """From the id of an object to that of the next one, in bytes."""
        data = self.values - 8 * self.references()
        return self.header + 8 * (1 + self.references() + (data + 7) // 8)


@dataclasses.dataclass(frozen=True)
class Run:
    """Objects of one kind, one after the other."""
    kind: Kind
    ids: range
    is_live: bool


def instances(class_: int, codes: list[int]) -> Kind:
    """Instances of a class whose values have these types."""
    head, place, rows = struct.Struct(">BQIQI"), 25, []
    for is_reference, some in itertools.groupby(codes, key=lambda code: code == REFERENCE):
        some = list(some)
        if is_reference:
            rows.append((place, len(some)))
        place += sum(8 if code == REFERENCE else SIZES[code] for code in some)
    return Kind(head, INSTANCE, (class_, place - head.size), place - head.size, tuple(rows))


def reference_arrays(class_: int, count: int) -> Kind:
    head = struct.Struct(">BQIIQ")
    return Kind(head, REFERENCES, (count, class_), 8 * count, ((head.size, count),), 16)


def primitive_arrays(code: int, count: int) -> Kind:
    return Kind(struct.Struct(">BQIIB"), PRIMITIVES, (count, code), count * SIZES[code], header=16)


class LargeDump:
    """A dump of about so many bytes, whose arrays mostly have no more elements than the longest."""

    def __init__(self, size: int, seed: int, longest: int):
        self.longest = longest
        self.draw = random.Random(seed)
        self.writer = Writer(8)
        # Of each class the one above it and the types of its own fields.
        self.classes: dict[int, tuple[int, list[int]]] = {}
        for number in range(CLASSES):
            above = self.draw.choice([0, *self.classes]) if number else 0
            codes = self.draw.choices([REFERENCE, REFERENCE, REFERENCE, *SIZES], k=self.draw.randrange(1, 7))
            self.classes[FIRST_CLASS + CLASS_BYTES * number] = above, codes
        self.kinds = self.all_kinds()
        self.runs = list(self.lay_runs(size))
        self.live, self.dead = self.pool(True), self.pool(False)

    def codes(self, class_: int) -> list[int]:
        above, own = self.classes[class_]
        return own + (self.codes(above) if above else [])

    def all_kinds(self) -> list[Kind]:
        made = [instances(class_, self.codes(class_)) for class_ in self.classes]
        counts = (min(count, self.longest) for count in (1, 2, 3, 8, 8, 16, 30, 100))
        made += [reference_arrays(class_, count) for class_, count in zip(self.classes, counts)]
        return made + [primitive_arrays(code, min(count, self.longest)) for code in SIZES for count in (0, 5, 40, self.longest)]

    def lay_runs(self, size: int) -> Iterator[Run]:
        """Runs from the first address up, until their records have so many bytes. The first two are one large object each."""
        draw, at = self.draw, FIRST_OBJECT
        large = [reference_arrays(FIRST_CLASS, min(size // 800, 2 ** 24 - 1)), primitive_arrays(8, size // 50)]
        while size > 0:
            kind, count = (large.pop(), 1) if large else (draw.choice(self.kinds), draw.randrange(1, LONGEST_RUN))
            chance = draw.randrange(100)
            at += 8 * (draw.randrange(1, 512) if chance < GAPS else 0) + (1 << 16) * (chance >= 100 - DROPPED)
            ids = range(at, at + count * kind.stride(), kind.stride())
            yield Run(kind, ids, count == 1 or draw.randrange(100) >= DEAD)
            at, size = ids.stop, size - count * kind.width()

    def pool(self, is_live: bool) -> array.array:
        """What references to live or to dead objects are taken from, in any order: ids of objects, null, and ids that nothing
        has."""
        made = array.array("Q", self.classes)
        for run in self.runs:
            if run.is_live == is_live:
                made.extend(run.ids)
        made.extend(itertools.repeat(0, len(made) // 8))
        made.extend(itertools.islice(itertools.cycle(MISSING), len(made) // 64))
        self.draw.shuffle(made)
        return made

    def drawn(self, pool: array.array, count: int) -> array.array:
        """So many ids that follow each other in a pool, which is begun again behind its last one."""
        start = self.draw.randrange(len(pool))
        found = pool[start:start + count]
        while len(found) < count:
            found += pool[:count - len(found)]
        return found

    def records(self, run: Run) -> bytes:
        kind, width = run.kind, run.kind.width()
        text = bytearray(self.draw.randbytes(width * len(run.ids)))
        pool = self.live if run.is_live else self.draw.choice([self.live, self.dead])
        targets = self.drawn(pool, kind.references() * len(run.ids))
        targets.byteswap()
        targets, taken = targets.tobytes(), 0
        for at, id_ in zip(range(0, len(text), width), run.ids):
            kind.head.pack_into(text, at, kind.tag, id_, 0, *kind.numbers)
            for place, count in kind.rows:
                text[at + place:at + place + 8 * count] = targets[taken:taken + 8 * count]
                taken += 8 * count
        return bytes(text)

    def roots(self) -> bytes:
        """Roots of each kind to live objects, to one twice, to null and to what isn't there, and to each class."""
        ids = [*self.drawn(self.live, ROOT_COUNT), 0, *MISSING]
        ids.append(ids[0])
        tags = itertools.cycle(ROOTS)
        classes = b"".join(self.writer.root(0x05, class_) for class_ in self.classes)
        return classes + b"".join(self.writer.root(next(tags), id_) for id_ in ids)

    def class_records(self) -> bytes:
        draw, text = self.draw, b""
        for class_, (above, codes) in self.classes.items():
            statics = [(code, self.drawn(self.live, 1)[0]) for code in draw.choices([REFERENCE, *SIZES], k=draw.randrange(5))]
            text += self.writer.class_(class_, above, codes, statics, [(10, 7)], tuple(self.drawn(self.live, 3)))
        return text

    def names(self) -> Iterator[tuple[int, bytes]]:
        for number, class_ in enumerate(self.classes, 1):
            yield TEXT, self.writer.id(number) + b"made/Class%d" % number
            yield LOADED, struct.pack(">IQIQ", number, class_, 0, number)

    def segments(self) -> Iterator[bytes]:
        """The heap, whose runs come in any order."""
        yield self.class_records() + self.roots()
        parts, size = [], 0
        for run in self.draw.sample(self.runs, len(self.runs)):
            parts.append(self.records(run))
            size += len(parts[-1])
            if size >= SEGMENT_BYTES:
                yield b"".join(parts)
                parts, size = [], 0
        yield b"".join(parts)

    def write(self, path: pathlib.Path) -> None:
        with path.open("wb") as file:
            file.write(self.writer.head)
            for tag, body in itertools.chain(self.names(), ((SEGMENT, body) for body in self.segments()), [(END, b"")]):
                file.write(struct.pack(">BII", tag, 0, len(body)))
                file.write(body)
