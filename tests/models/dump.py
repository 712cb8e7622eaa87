"""A slow plain model of heap dumps as images, made from docs/DUMPS.md alone.

It reads a dump whole, by slices and dictionaries, and shares nothing with the crates.
"""
import collections
import dataclasses
import itertools
import struct

from tests.models.image import LIMITS, allows

NAMES = (b"JAVA PROFILE 1.0.1\0", b"JAVA PROFILE 1.0.2\0")
# The records that hold a heap or a part of one, and the one that ends the parts.
WHOLE, SEGMENT, END = 0x0C, 0x1C, 0x2C
REFERENCE = 2
DATA_BYTES = {4: 1, 8: 1, 5: 2, 9: 2, 6: 4, 10: 4, 7: 8, 11: 8}
# What follows the id of a root, in bytes; None is an id.
ROOTS = {0xFF: 0, 0x01: None, 0x02: 8, 0x03: 8, 0x04: 4, 0x05: 0, 0x06: 4, 0x07: 0, 0x08: 8}
WIDEST_GAP = 512
# The records outside the heap that name classes: a text, and a class with the id of the text that is its name.
TEXT, LOADED = 0x01, 0x02
PRIMITIVE_NAMES = {4: b"[Z", 5: b"[C", 6: b"[F", 7: b"[D", 8: b"[B", 9: b"[S", 10: b"[I", 11: b"[J"}
CLASS_OF_CLASSES = b"java/lang/Class"
# The most bytes of a name that a list shows.
MOST_SHOWN = 500
# The classes of references that a collector doesn't follow, and of those that `--weak` follows.
REFERENCES, SOFT = b"java/lang/ref/Reference", b"java/lang/ref/SoftReference"
# The widest gap that counts as padding, in words.
PADDING = {"array": 2, "class": 17, "instance": 1}


class Malformed(Exception):
    """What is wrong with a dump, and the offset of it where docs/DUMPS.md tells one."""


@dataclasses.dataclass
class Class:
    parent: int
    fields: list[int]
    # The ids of their names.
    names: list[int]


@dataclasses.dataclass
class Object:
    """The ids of an object's references, the bytes of its data, and which reference isn't followed, if one isn't."""
    references: list[int]
    data: bytes
    kind: str
    weak: int | None = None

    def words(self) -> int:
        return 1 + len(self.references) + (len(self.data) + 7) // 8


class Body:
    """The bytes of one record, and how far they were read."""

    def __init__(self, dump: bytes, start: int, length: int, id_size: int):
        if start + length > len(dump):
            raise Malformed(len(dump), "cut")
        self.dump, self.at, self.end, self.id_size = dump, start, start + length, id_size

    def take(self, count: int) -> bytes:
        if self.at + count > self.end:
            raise Malformed(self.at, "beyond")
        self.at += count
        return self.dump[self.at - count:self.at]

    def number(self, count: int) -> int:
        return int.from_bytes(self.take(count), "big")

    def id(self) -> int:
        return self.number(self.id_size)

    def type(self) -> int:
        code = self.number(1)
        if code != REFERENCE and code not in DATA_BYTES:
            raise Malformed(self.at - 1, "type")
        return code

    def value(self, code: int) -> bytes:
        return self.take(self.id_size if code == REFERENCE else DATA_BYTES[code])


class Dump:
    """What a dump says."""

    def __init__(self, dump: bytes, followed: str = "all"):
        self.classes: dict[int, Class] = {}
        self.objects: dict[int, Object] = {}
        # The class and the field values of an instance, and where it stands.
        self.instances: dict[int, tuple[int, bytes, int]] = {}
        self.roots: list[int] = []
        self.order: list[int] = []
        self.texts: dict[int, bytes] = {}
        self.text_of_class: dict[int, int] = {}
        # The name of the class of an array of primitive values, or the id of the class of any other object; None for a class.
        self.class_of: dict[int, bytes | int | None] = {}
        self.followed = followed
        if dump[:19] not in NAMES:
            raise Malformed(0 if len(dump) >= 19 else len(dump), "name")
        if len(dump) < 31:
            raise Malformed(len(dump), "cut")
        self.id_size = int.from_bytes(dump[19:23], "big")
        if self.id_size not in (4, 8):
            raise Malformed(19, "id size")
        self.read_records(dump)
        for id_, (class_, values, at) in self.instances.items():
            self.objects[id_] = self.instance(class_, values, at)

    def read_records(self, dump: bytes) -> None:
        at, tags = 31, []
        while at < len(dump):
            if at + 9 > len(dump):
                raise Malformed(len(dump), "cut")
            tag, _time, length = struct.unpack(">BII", dump[at:at + 9])
            body = Body(dump, at + 9, length, self.id_size)
            if tag in (WHOLE, SEGMENT):
                while body.at < body.end:
                    self.read_heap_record(body)
            elif tag == TEXT and length >= self.id_size:
                id_ = body.id()
                self.texts[id_] = dump[body.at:body.end]
            elif tag == LOADED and length >= 8 + 2 * self.id_size:
                _, class_, _ = body.take(4), body.id(), body.take(4)
                self.text_of_class[class_] = body.id()
            tags.append(tag)
            at = body.end
        if WHOLE not in tags and SEGMENT not in tags:
            raise Malformed(len(dump), "heap")
        if SEGMENT in tags and END not in tags[len(tags) - tags[::-1].index(SEGMENT):]:
            raise Malformed(len(dump), "end")

    def tell(self, id_: int, at: int) -> None:
        if id_ == 0:
            raise Malformed(at, "null")
        if id_ in self.objects or id_ in self.instances:
            raise Malformed(at, "twice")

    def read_heap_record(self, body: Body) -> None:
        start = body.at
        tag = body.number(1)
        if tag in ROOTS:
            id_ = body.id()
            body.take(self.id_size if ROOTS[tag] is None else ROOTS[tag])
            if id_ != 0:
                self.roots.append(id_)
        elif tag == 0x20:
            self.read_class(body, start)
        elif tag == 0x21:
            id_, _, class_ = body.id(), body.take(4), body.id()
            self.tell(id_, start)
            self.instances[id_] = (class_, body.take(body.number(4)), start)
            self.class_of[id_] = class_
        elif tag == 0x22:
            id_, _, count, class_ = body.id(), body.take(4), body.number(4), body.id()
            self.tell(id_, start)
            self.class_of[id_] = class_
            elements = body.take(count * self.id_size)
            self.objects[id_] = Object(self.ids(elements), b"", "array")
        elif tag == 0x23:
            id_, _, count, code = body.id(), body.take(4), body.number(4), body.type()
            if code == REFERENCE:
                raise Malformed(start, "primitive")
            self.tell(id_, start)
            self.class_of[id_] = PRIMITIVE_NAMES[code]
            self.objects[id_] = Object([], body.take(count * DATA_BYTES[code]), "array")
        else:
            raise Malformed(start, "tag")

    def ids(self, values: bytes) -> list[int]:
        return [int.from_bytes(values[i:i + self.id_size], "big") for i in range(0, len(values), self.id_size)]

    def read_class(self, body: Body, start: int) -> None:
        id_, _ = body.id(), body.take(4)
        above = [body.id() for _ in range(6)]
        body.take(4)
        for _ in range(body.number(2)):
            body.take(2)
            body.value(body.type())
        own = Object(above[:4], b"", "class")
        for _ in range(body.number(2)):
            body.id()
            code = body.type()
            self.put(own, code, body.value(code))
        self.tell(id_, start)
        self.objects[id_] = own
        fields, names = [], []
        for _ in range(body.number(2)):
            names.append(body.id())
            fields.append(body.type())
        self.classes[id_] = Class(above[0], fields, names)
        self.class_of[id_] = None

    def put(self, target: Object, code: int, value: bytes) -> None:
        if code == REFERENCE:
            target.references.append(int.from_bytes(value, "big"))
        else:
            target.data += value

    def fields(self, class_: int, at: int) -> list[int]:
        """The types of the fields of a class and of those above it."""
        fields, seen = [], set()
        while class_ != 0:
            if class_ not in self.classes or class_ in seen:
                raise Malformed(at, "class")
            seen.add(class_)
            fields += self.classes[class_].fields
            class_ = self.classes[class_].parent
        return fields

    def name(self, class_: int) -> bytes:
        return self.texts.get(self.text_of_class.get(class_, 0), b"")

    def referent(self, class_: int) -> int | None:
        """Which of the references of this class's instances isn't followed."""
        before = 0
        while class_ != 0 and self.followed != "all":
            if self.followed == "soft" and self.name(class_) == SOFT:
                return None
            made = self.classes[class_]
            for code, name in zip(made.fields, made.names):
                if code == REFERENCE and self.name(class_) == REFERENCES and self.texts.get(name) == b"referent":
                    return before
                before += code == REFERENCE
            class_ = made.parent
        return None

    def instance(self, class_: int, values: bytes, at: int) -> Object:
        fields = self.fields(class_, at) if class_ else None
        if fields is None:
            raise Malformed(at, "class")
        sizes = [self.id_size if code == REFERENCE else DATA_BYTES[code] for code in fields]
        if sum(sizes) != len(values):
            raise Malformed(at, "instance size")
        made = Object([], b"", "class" if self.name(class_) == CLASS_OF_CLASSES else "instance", self.referent(class_))
        ends = list(itertools.accumulate(sizes, initial=0))
        for code, start, end in zip(fields, ends, ends[1:]):
            self.put(made, code, values[start:end])
        return made


@dataclasses.dataclass
class Import:
    """What an import gives: the bytes of the image and the line that is printed, or the words that are too many."""
    image: bytes | None
    line: str


def reached(dump: Dump) -> set[int]:
    found = {id_ for id_ in dump.roots if id_ in dump.objects}
    queue = collections.deque(found)
    while queue:
        made = dump.objects[queue.popleft()]
        for id_ in (id_ for at, id_ in enumerate(made.references) if at != made.weak):
            if id_ in dump.objects and id_ not in found:
                found.add(id_)
                queue.append(id_)
    return found


def places(dump: Dump, ids: list[int], gaps: bool, packs: bool = False) -> tuple[dict[int, int], int, int]:
    """The address of each object, how far all reach, and how many gaps were left out."""
    addresses, at, behind, dropped, padding = {}, 0, None, 0, 0
    for id_ in ids:
        gap = (id_ - behind) // 8 if behind is not None and gaps and id_ > behind else 0
        if packs and gap <= padding:
            pass
        elif gap > WIDEST_GAP:
            dropped += 1
        else:
            at += gap
        addresses[id_] = at
        at += dump.objects[id_].words()
        behind = id_ + 8 * dump.objects[id_].words()
        padding = PADDING[dump.objects[id_].kind]
    return addresses, at, dropped


def most_words(version: int, region_log: int) -> int:
    """The most words of an image of this version."""
    _, max_words, max_regions = LIMITS[version]
    return min(max_words, max_regions << region_log)


def machine_words(dump: Dump) -> dict[int, int]:
    """How many words each object has in the machine: up to the next one, if no more than padding is between."""
    ids, found = sorted(dump.objects), {}
    for id_, after in itertools.zip_longest(ids, ids[1:]):
        made = dump.objects[id_]
        between = (after - id_) // 8 if after else None
        found[id_] = between if between is not None and between <= made.words() + PADDING[made.kind] else made.words()
    return found


def make(data: bytes, region_log: int = 9, allowance: int = 0, live_only: bool = False, version: int | None = None,
         followed: str = "all", packs: bool = False) -> Import:
    dump = Dump(data, followed)
    live = reached(dump)
    most = most_words(version or 3, region_log)
    if not (version or live_only):
        most = min(most, max(most_words(2, region_log), 2 * sum(made.words() for made in dump.objects.values())))
    ids = sorted(live if live_only else dump.objects)
    addresses, end, dropped = places(dump, ids, not live_only, packs)
    if end > most:
        if live_only:
            return Import(None, f"the reachable objects have {end} words, and {most} are the most")
        live_words = sum(dump.objects[id_].words() for id_ in live)
        return Import(None, f"the heap has {end} words, and {most} are the most; with --live-only it has {live_words}")
    total = max(1, -(-end >> region_log)) << region_log
    words = [0] * total
    for id_, at in addresses.items():
        made = dump.objects[id_]
        words[at] = 1 << 56 | len(made.references) << 32 | made.words()
        for f, reference in enumerate(made.references):
            is_kept = reference in (live if f == made.weak else addresses)
            words[at + 1 + f] = addresses[reference] + 1 if is_kept else 0
        padded = made.data + bytes(-len(made.data) % 8)
        first = at + 1 + len(made.references)
        words[first:first + len(padded) // 8] = struct.unpack(f"<{len(padded) // 8}Q", padded)
    roots = sorted({addresses[id_] + 1 for id_ in dump.roots if id_ in addresses})
    lost = sum(id_ != 0 and id_ not in dump.objects for made in dump.objects.values() for id_ in made.references)
    lost += sum(id_ not in dump.objects for id_ in dump.roots)
    version = version or (2 if allows(2, region_log, total) else 3)
    head = struct.pack("<8sIIQQ", b"PCHEAP0%d" % version, region_log, len(roots), total, allowance)
    line = (f"words {total} objects {len(ids)} roots {len(roots)} live {len(live)} dead {len(ids) - len(live)} "
            f"dropped-gaps {dropped} unresolved {lost}")
    return Import(head + struct.pack(f"<{total}Q", *words) + struct.pack(f"<{len(roots)}Q", *roots), line)


class Names:
    """The classes of a dump as the lists show them. A key tells a class, and where it comes among those with equal bytes."""

    def __init__(self, dump: Dump):
        self.dump = dump
        self.ids = list(dump.classes)
        self.places = {id_: at for at, id_ in enumerate(self.ids)}
        self.names = [dump.texts.get(dump.text_of_class.get(id_, 0), b"") for id_ in self.ids]
        self.of_classes = (3, self.names.index(CLASS_OF_CLASSES)) if CLASS_OF_CLASSES in self.names else (2, 0)

    def key(self, id_: int) -> tuple[int, int]:
        class_ = self.dump.class_of[id_]
        if isinstance(class_, bytes):
            return 1, list(PRIMITIVE_NAMES.values()).index(class_)
        if class_ is None:
            return self.of_classes
        return (3, self.places[class_]) if class_ in self.places else (0, 0)

    def inner(self, key: tuple[int, int]) -> bytes:
        group, at = key
        return self.names[at] if group == 3 else {0: b"[?", 1: list(PRIMITIVE_NAMES.values())[at], 2: CLASS_OF_CLASSES}[group]

    def shown(self, key: tuple[int, int]) -> str:
        name = self.inner(key)
        if not name:
            return f"class@{self.ids[key[1]]:x}"
        mark = f"...@{self.ids[key[1]]:x}" if len(name) > MOST_SHOWN else ""
        shown = name[:MOST_SHOWN].replace(b"/", b".")
        return "".join(chr(byte) if 0x20 < byte < 0x7F and byte != 0x5C else f"\\x{byte:02x}" for byte in shown) + mark

    def kind(self, key: tuple[int, int]) -> str:
        name = self.inner(key)
        return "array" if name[:1] == b"[" else "class" if name == CLASS_OF_CLASSES else "instance"


FOLLOWED = {"all": "live counts what only weak, soft, phantom or final references lead to, which --weak leaves out",
            "soft": "live doesn't count what only weak, phantom or final references lead to",
            "strong": "live doesn't count what only weak, soft, phantom or final references lead to"}


@dataclasses.dataclass
class Lists:
    """The text of --classes, and the lines that --histogram adds."""
    objects: str
    histogram: str


def lists(data: bytes, region_log: int = 9, live_only: bool = False, rows: int = 1_000_000, followed: str = "all",
          packs: bool = False) -> Lists:
    """What `import` prints about the objects of a dump that has an image."""
    dump = Dump(data, followed)
    names, machine = Names(dump), machine_words(dump)
    live = reached(dump)
    ids = sorted(live if live_only else dump.objects)
    addresses, end, dropped = places(dump, ids, not live_only, packs)
    total = max(1, -(-end >> region_log)) << region_log
    lines, sums = [], collections.defaultdict(lambda: [0, 0, 0, 0, 0])
    dead, padding, gaps, last, kind = 0, 0, 0, 0, None
    for id_ in ids:
        key, size = names.key(id_), 8 * dump.objects[id_].words()
        lines.append(f"{addresses[id_]} 0x{id_:x} {names.shown(key)} {size} {'live' if id_ in live else 'dead'}\n")
        at = 0 if id_ in live else 2
        sums[key][at] += 1
        sums[key][at + 1] += size
        sums[key][4] += 8 * machine[id_]
        gap = addresses[id_] - last
        if gap <= PADDING.get(kind, 0):
            padding += gap
        else:
            gaps += gap
        dead += 0 if id_ in live else size
        last = addresses[id_] + size // 8
        kind = names.kind(key)
    shown = " num  live objects    live bytes  dead objects    dead bytes machine bytes  class\n"
    ordered = sorted(sums, key=lambda key: (-sums[key][1] - sums[key][3], key))
    for number, key in enumerate(ordered[:rows], 1):
        shown += f"{number:>4}:" + "".join(f" {count:>13}" for count in sums[key]) + f"  {names.shown(key)}\n"
    shown += "total" + "".join(f" {sum(row[at] for row in sums.values()):>13}" for at in range(5)) + "\n"
    parts = ((dead, "objects that no root reaches"), (8 * padding, "padding: the machine's larger headers and alignment"),
             (8 * gaps, "wider gaps: free space, or objects that the dump leaves out"), (8 * (total - last), "after the last object"))
    shown += f"dead bytes {sum(part for part, _ in parts)}\n" + "".join(f"  {part:>13} {text}\n" for part, text in parts)
    lost = sum(id_ != 0 and id_ not in dump.objects for made in dump.objects.values() for id_ in made.references)
    lost += sum(id_ not in dump.objects for id_ in dump.roots)
    shown += f"dropped-gaps {dropped}: gaps of more than 512 words, which the image leaves out\n"
    shown += f"unresolved {lost}: references and roots to objects that are not in the dump; they are null in the image\n"
    shown += FOLLOWED[followed] + "\n"
    shown += "live and dead bytes are those in the image, machine bytes those in the Java machine, as jmap -histo has them\n"
    return Lists("".join(lines), shown)
