"""Writes heap dumps: what a virtual machine writes, and what none ever does."""
import random
import struct

SIZES = {4: 1, 8: 1, 5: 2, 9: 2, 6: 4, 10: 4, 7: 8, 11: 8}
# What stands behind the id of a root, by its tag; i is an id.
ROOTS = {0xFF: "", 0x01: "i", 0x02: "8", 0x03: "8", 0x04: "4", 0x05: "", 0x06: "4", 0x07: "", 0x08: "8"}


class Writer:
    """A dump while it is written."""

    def __init__(self, id_size: int = 8, version: str = "1.0.2"):
        self.id_size = id_size
        self.head = f"JAVA PROFILE {version}".encode() + b"\0" + struct.pack(">IQ", id_size, 1_700_000_000_000)
        self.records: list[bytes] = []

    def id(self, number: int) -> bytes:
        return number.to_bytes(self.id_size, "big")

    def value(self, code: int, number: int) -> bytes:
        return self.id(number) if code == 2 else (number % (1 << 8 * SIZES[code])).to_bytes(SIZES[code], "big")

    def record(self, tag: int, body: bytes) -> "Writer":
        self.records.append(struct.pack(">BII", tag, 0, len(body)) + body)
        return self

    def text(self) -> bytes:
        return self.head + b"".join(self.records)

    def root(self, tag: int, number: int) -> bytes:
        more = {"": b"", "i": self.id(7), "4": bytes(4), "8": bytes(8)}[ROOTS[tag]]
        return bytes([tag]) + self.id(number) + more

    def class_(self, number: int, parent: int = 0, fields: list[int] = (), statics: list[tuple[int, int]] = (),
               constants: list[tuple[int, int]] = (), others: tuple[int, int, int] = (0, 0, 0),
               names: list[int] | None = None) -> bytes:
        body = b"\x20" + self.id(number) + bytes(4) + self.id(parent)
        body += b"".join(self.id(other) for other in others) + self.id(0) * 2 + bytes(4)
        body += struct.pack(">H", len(constants))
        for code, constant in constants:
            body += struct.pack(">HB", 1, code) + self.value(code, constant)
        body += struct.pack(">H", len(statics))
        for code, static in statics:
            body += self.id(1) + bytes([code]) + self.value(code, static)
        body += struct.pack(">H", len(fields))
        return body + b"".join(self.id(name) + bytes([code]) for name, code in zip(names or [1] * len(fields), fields))

    def name(self, text: int, name: bytes, class_: int = 0) -> None:
        """Writes a text, as the name of a class if one is given."""
        self.record(0x01, self.id(text) + name)
        if class_:
            self.record(0x02, struct.pack(">I", text) + self.id(class_) + bytes(4) + self.id(text))

    def instance(self, number: int, class_: int, values: list[tuple[int, int]] = (), length: int | None = None) -> bytes:
        data = b"".join(self.value(code, value) for code, value in values)
        told = len(data) if length is None else length
        return b"\x21" + self.id(number) + bytes(4) + self.id(class_) + struct.pack(">I", told) + data

    def references(self, number: int, elements: list[int], count: int | None = None) -> bytes:
        told = len(elements) if count is None else count
        body = b"".join(self.id(element) for element in elements)
        return b"\x22" + self.id(number) + struct.pack(">II", 0, told) + self.id(0) + body

    def primitives(self, number: int, code: int, elements: list[int], count: int | None = None) -> bytes:
        told = len(elements) if count is None else count
        body = b"".join(self.value(code, element) for element in elements)
        return b"\x23" + self.id(number) + struct.pack(">IIB", 0, told, code) + body


def small(id_size: int = 8, version: str = "1.0.2") -> Writer:
    """A dump with each record once: two classes, of which the upper comes last, and objects of every kind."""
    writer = Writer(id_size, version)
    writer.record(0x01, writer.id(1) + b"name")
    writer.record(0x02, struct.pack(">I", 1) + writer.id(100) + bytes(4) + writer.id(1))
    heap = b"".join(writer.root(tag, 1000 + 8 * i) for i, tag in enumerate(ROOTS))
    heap += writer.instance(1000, 100, [(2, 1032), (10, 0x01020304), (4, 1), (2, 1200), (11, 0x1122334455667788)])
    heap += writer.references(1064, [1000, 0, 1032, 9999])
    writer.record(0x1C, heap)
    heap = writer.primitives(1032, 8, list(range(1, 12)))
    heap += writer.class_(100, 108, [2, 10, 4], [(2, 1064), (9, 0x0A0B), (5, 0x41)],
                          [(code, 0x0C0D0E0F) for code in (2, *SIZES)], (1032, 0, 77))
    heap += writer.class_(108, 0, [2, 11])
    heap += writer.primitives(1200, 7, [1]) + writer.primitives(1224, 5, [0x41, 0x42])
    writer.record(0x1C, heap)
    return writer.record(0x2C, b"")


def drawn(seed: int) -> bytes:
    """A dump with a random heap."""
    draw = random.Random(seed)
    writer = Writer(draw.choice((4, 8)), draw.choice(("1.0.1", "1.0.2")))
    count = draw.choice((0, 1, 3, 30, 200))
    ids, at = [], draw.randrange(1, 5000)
    for _ in range(count):
        ids.append(at)
        at += draw.choice((1, 8, 8, 16, 24, 40, 200, 4096, 4104, 4112, 9000))
    draw.shuffle(ids)
    classes = {number: (draw.choice([0] + ids[:i]) if i else 0, [draw.choice((2, 2, *SIZES)) for _ in range(draw.randrange(5))])
               for i, number in enumerate(ids[:draw.randrange(1, 8)])}

    def named() -> int:
        return draw.choice((0, 12345, *ids)) if ids else 0

    def layout(number: int) -> list[int] | None:
        codes = []
        while number:
            if number not in classes:
                return None
            codes += classes[number][1]
            number = classes[number][0]
        return codes

    pieces = [writer.class_(number, parent, fields, [(code, named()) for code in draw.choices((2, *SIZES), k=draw.randrange(4))],
                            [(code, named()) for code in draw.choices((2, *SIZES), k=draw.randrange(3))],
                            (named(), named(), named()))
              for number, (parent, fields) in classes.items()]
    for number in ids[len(classes):]:
        class_ = draw.choice(list(classes))
        code = draw.choice(list(SIZES))
        codes = layout(class_)
        pieces.append(draw.choice((
            writer.instance(number, class_, [(code, named()) for code in codes]) if codes is not None
            else writer.references(number, []),
            writer.references(number, [named() for _ in range(draw.randrange(9))]),
            writer.primitives(number, code, [draw.getrandbits(64) for _ in range(draw.choice((0, 1, 5, 70)))]))))
    pieces += [writer.root(draw.choice(list(ROOTS)), named()) for _ in range(draw.randrange(6))]
    draw.shuffle(pieces)
    if draw.random() < 0.3:
        return writer.record(0x0C, b"".join(pieces)).text()
    while pieces:
        size = draw.randrange(1, 40)
        writer.record(0x1C, b"".join(pieces[:size]))
        pieces = pieces[size:]
        if draw.random() < 0.3:
            writer.record(draw.choice((0x01, 0x05, 0x77)), bytes(draw.randrange(9)))
    return writer.record(0x1C, b"").record(0x2C, b"").text()
