"""A plain reader of large heap dumps with ids of 8 bytes, and their graph beside that of a collected image."""
import dataclasses
import mmap
import pathlib
import struct
from collections.abc import Sequence

from tests.models.image import FRONT, header, size_of

REFERENCE = 2
DATA_BYTES = {4: 1, 8: 1, 5: 2, 9: 2, 6: 4, 10: 4, 7: 8, 11: 8}
# The bytes of a root after its tag.
ROOTS = {0xFF: 8, 0x01: 16, 0x02: 16, 0x03: 16, 0x04: 12, 0x05: 8, 0x06: 12, 0x07: 8, 0x08: 16}
CLASS, INSTANCE, REFERENCES, PRIMITIVES = 0x20, 0x21, 0x22, 0x23
SEGMENT = 0x1C
RECORD, ID = struct.Struct(">BII"), struct.Struct(">Q")
# What follows the tag: id, serial number; class, bytes or elements, class or elements, type.
HEADS = {INSTANCE: struct.Struct(">QIQI"), REFERENCES: struct.Struct(">QIIQ"), PRIMITIVES: struct.Struct(">QIIB")}


@dataclasses.dataclass
class Layout:
    """The values of an instance: how to take them apart, and which of them are references and which are data."""
    form: struct.Struct
    references: list[int]
    data: list[int]

    @classmethod
    def of(cls, codes: list[int]) -> "Layout":
        form = "".join("Q" if code == REFERENCE else f"{DATA_BYTES[code]}s" for code in codes)
        references = [i for i, code in enumerate(codes) if code == REFERENCE]
        data = [i for i, code in enumerate(codes) if code != REFERENCE]
        return cls(struct.Struct(f">{form}"), references, data)


@dataclasses.dataclass
class Class:
    above: int
    codes: list[int]
    references: list[int]
    data: bytes


class DumpGraph:
    """The objects and roots of a dump. Objects are taken out of it when they are asked for."""

    def __init__(self, path: pathlib.Path):
        with path.open("rb") as file:
            self.text = mmap.mmap(file.fileno(), 0, access=mmap.ACCESS_READ)
        # Of each id the place of its record.
        self.places: dict[int, int] = {}
        self.classes: dict[int, Class] = {}
        roots: list[int] = []
        at = 31
        while at < len(self.text):
            tag, _, length = RECORD.unpack_from(self.text, at)
            at += RECORD.size
            if tag == SEGMENT:
                self.read_segment(at, at + length, roots)
            at += length
        # Those to an object of the dump, each once, ascending.
        self.roots = sorted({id_ for id_ in roots if id_ in self.places})
        self.layouts = {id_: Layout.of(self.codes(id_)) for id_ in self.classes}

    def read_segment(self, at: int, end: int, roots: list[int]) -> None:
        text, places = self.text, self.places
        while at < end:
            tag = text[at]
            if tag in HEADS:
                head = HEADS[tag]
                id_, _, one, other = head.unpack_from(text, at + 1)
                places[id_] = at
                at += 1 + head.size + (other if tag == INSTANCE else 8 * one if tag == REFERENCES else one * DATA_BYTES[other])
            elif tag == CLASS:
                at = self.read_class(at)
            else:
                roots += ID.unpack_from(text, at + 1)
                at += 1 + ROOTS[tag]

    def read_class(self, start: int) -> int:
        """Reads a class. Where its record ends."""
        id_, _, *above = struct.unpack_from(">QI6Q", self.text, start + 1)
        made = self.classes[id_] = Class(above[0], [], above[:4], b"")
        self.places[id_] = start
        at, constants = self.entries(start + 65, 2, True)
        at, statics = self.entries(at, 8, True)
        for code, value in statics:
            if code == REFERENCE:
                made.references += ID.unpack(value)
            else:
                made.data += value
        at, fields = self.entries(at, 8, False)
        made.codes = [code for code, _ in fields]
        return at

    def entries(self, at: int, name: int, have_values: bool) -> tuple[int, list[tuple[int, bytes]]]:
        """A number of entries, each a name of so many bytes, a type, and perhaps a value; and where they end."""
        count, = struct.unpack_from(">H", self.text, at)
        at += 2
        found = []
        for _ in range(count):
            code = self.text[at + name]
            at += name + 1
            size = (8 if code == REFERENCE else DATA_BYTES[code]) if have_values else 0
            found.append((code, self.text[at:at + size]))
            at += size
        return at, found

    def codes(self, class_: int) -> list[int]:
        made = self.classes[class_]
        return made.codes + (self.codes(made.above) if made.above else [])

    def object(self, id_: int) -> tuple[Sequence[int], bytes]:
        """The references of an object, as ids, and its data."""
        at, text = self.places[id_], self.text
        tag = text[at]
        if tag == CLASS:
            return self.classes[id_].references, self.classes[id_].data
        _, _, one, other = HEADS[tag].unpack_from(text, at + 1)
        at += 1 + HEADS[tag].size
        if tag == INSTANCE:
            layout = self.layouts[one]
            values = layout.form.unpack_from(text, at)
            return [values[i] for i in layout.references], b"".join([values[i] for i in layout.data])
        if tag == REFERENCES:
            return struct.unpack_from(f">{one}Q", text, at), b""
        return (), text[at:at + one * DATA_BYTES[other]]


def words_of(references: Sequence[int], data: bytes) -> int:
    return 1 + len(references) + (len(data) + 7) // 8


class LargeImage:
    """The words and roots of an image."""

    def __init__(self, path: pathlib.Path):
        with path.open("rb") as file:
            self.text = mmap.mmap(file.fileno(), 0, access=mmap.ACCESS_READ)
        _, _, count, length, _ = FRONT.unpack_from(self.text)
        numbers = memoryview(self.text)[FRONT.size:].cast("Q")
        self.words, self.roots = numbers[:length], numbers[length:]
        if len(self.roots) != count:
            raise ValueError(f"{path} has {len(self.roots)} roots and not {count}")


class Walk:
    """The graph of a dump beside that of a collected image, object by object in the order in which both are met from the roots
    on."""

    def __init__(self, dump: DumpGraph, image: LargeImage):
        self.dump = dump
        self.image = image
        # Of each id that was met the reference that stands for it in the image: null for null and for what isn't there.
        self.met = {0: 0}
        self.order: list[int] = []

    def leads(self, id_: int, word: int) -> bool:
        """Whether a reference of the image leads where one to this id does."""
        known = self.met.get(id_)
        if known is None:
            is_there = id_ in self.dump.places
            known = self.met[id_] = word if is_there else 0
            if is_there:
                self.order.append(id_)
        return word == known

    def difference(self, top: int) -> str:
        """The first difference, or nothing. All live objects lie side by side from address 0 to the top, in the order of their
        ids."""
        roots = self.dump.roots
        if len(roots) != len(self.image.roots) or not all(map(self.leads, roots, self.image.roots)):
            return f"{len(self.image.roots)} roots, or null among them, where the dump has {len(roots)}"
        # It grows while objects are met.
        for number, id_ in enumerate(self.order):
            if wrong := self.compare(id_):
                return f"object {number}, id {id_}, at {self.met[id_] - 1}: {wrong}"
        at = 0
        for id_ in sorted(self.order):
            if self.met[id_] != 1 + at:
                return f"id {id_} is at {self.met[id_] - 1} and not at {at}"
            at += size_of(self.image.words[at])
        return "" if at == top else f"objects reach up to {at}, and the top is {top}"

    def compare(self, id_: int) -> str:
        """What is wrong with an object of the image."""
        references, data = self.dump.object(id_)
        at, words, size = self.met[id_] - 1, self.image.words, words_of(references, data)
        if not 0 <= at <= len(words) - size:
            return f"{size} words have no room"
        if words[at] != header(size, len(references)):
            return f"its header is {words[at]:x}"
        behind = at + 1 + len(references)
        met = self.met
        for field, (target, word) in enumerate(zip(references, words[at + 1:behind])):
            # What was met before is the rule, and a call takes long.
            if met.get(target) != word and not self.leads(target, word):
                return f"reference {field} is {word}, where the dump has id {target}"
        if bytes(words[behind:at + size]) != data.ljust(8 * (at + size - behind), b"\0"):
            return "other data"
        return ""
