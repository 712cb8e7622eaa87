#!/usr/bin/env python3
"""Imports heap dumps and compares, byte for byte, with the slow model of docs/DUMPS.md.

The dumps: those of examples/dumps; written ones, with each kind of record, ids of 4 and 8 bytes, both versions, classes
behind their instances, gaps and references that lead nowhere; random ones; ones in which objects have one id; heaps in
records of each kind and order; each beginning of one; ones with changed bytes; and where there is a Java machine, its own, by
each of the ways in which it writes one. Of these the machine also says what must come out: tests/support/Graph.java. A dump that the
model refuses must be refused, with the text and the offset of docs/DUMPS.md, and nothing written. Dumps that were made to be
dear may take so much processor time and so much memory. Ends with status 1 where an answer is another one.

usage: tests/cli/test_imported_heaps.py [PROGRAM] [--count N]      (PROGRAM import DUMP IMAGE ..; N random dumps and N changed ones)
"""
import argparse
import collections.abc
import itertools
import os
import pathlib
import random
import shutil
import struct
import subprocess
import sys
import tempfile

# Finds the package `tests` from any folder, and writes nothing beside its modules.
sys.dont_write_bytecode = True
sys.path.insert(0, str(pathlib.Path(__file__).resolve().parents[2]))
from tests.models import dump as dump_model
from tests.support import dump_writer
from tests.support.measured import measured
from tests.support.program import TOP, built

KEPT = TOP / "examples" / "dumps"
SECONDS = 120
# What standard error says of each kind of what is wrong.
TEXTS = {
    "name": "this is no heap dump of version 1.0.1 or 1.0.2",
    "id size": "where 4 or 8 are read",
    "cut": "the dump ends here, inside a record",
    "beyond": "this goes beyond the length of its record",
    "tag": "is that of no record of a heap",
    "type": "is none of the format's",
    "primitive": "an array of references is told as one of primitive values",
    "null": "an object with id 0, which is null",
    "twice": "a second object with id",
    "class": "the class of this object, or one above it, is not in the dump or is above itself",
    "instance size": "where the fields of its class have another number",
    "heap": "the dump ends without a heap",
    "end": "the dump ends without the end of its heap",
}


class Imports:
    """The program, and how often it was tried and wrong."""

    def __init__(self, program: pathlib.Path, folder: pathlib.Path):
        self.program = program.resolve()
        self.folder = folder
        self.count = 0
        self.wrong = 0

    def note(self, is_right: bool, name: str, text: str = "") -> None:
        self.count += 1
        if not is_right:
            self.wrong += 1
            print(f"wrong: {name}: {text}"[:600])

    def run(self, dump: pathlib.Path, words: list[str]) -> tuple[subprocess.CompletedProcess, bytes | None]:
        image = self.folder / "image"
        image.unlink(missing_ok=True)
        done = subprocess.run([self.program, "import", dump, image, *words], stdin=subprocess.DEVNULL,
                              capture_output=True, text=True, timeout=SECONDS)
        return done, image.read_bytes() if image.exists() else None

    def try_dump(self, name: str, data: bytes, region_log: int = 9, allowance: int = 0, live_only: bool = False) -> bytes | None:
        """Imports a dump as the model does, and answers the image."""
        words = ["--region-log", str(region_log)] if region_log != 9 else []
        words += ["--allowance", str(allowance)] if allowance else []
        words += ["--live-only"] if live_only else []
        dump = self.folder / "dump"
        dump.write_bytes(data)
        done, image = self.run(dump, words)
        said = f"{words} gives {done.returncode} {done.stdout!r} {done.stderr!r}"
        try:
            wanted = dump_model.make(data, region_log, allowance, live_only)
        except dump_model.Malformed as malformed:
            offset, kind = malformed.args
            told = (f"byte {offset}: " in done.stderr and TEXTS[kind] in done.stderr)
            # Where a record is cut, what stands before the cut may be wrong too, and is reported first.
            told = told or (kind in ("cut", "name") and "byte " in done.stderr)
            self.note(done.returncode == 1 and done.stdout == "" and not image and told, name, f"{said}, not {malformed}")
            return None
        if wanted.image is None:
            told = done.returncode == 1 and done.stdout == "" and not image and wanted.line in done.stderr
            self.note(told, name, f"{said}, not {wanted.line}")
            return None
        right = done.returncode == 0 and done.stdout == wanted.line + "\n" and done.stderr == ""
        self.note(right and image == wanted.image, name, f"{said}, not {wanted.line}, or another image")
        return image

    def try_both(self, name: str, data: bytes, region_log: int = 9, allowance: int = 0) -> bytes | None:
        self.try_dump(f"{name}, live only", data, region_log, allowance, True)
        return self.try_dump(name, data, region_log, allowance)


def try_kept(tried: Imports) -> None:
    """The dumps that are kept, with regions of each size."""
    for kept in sorted(KEPT.glob("*.hprof")):
        for region_log in (3, 9, 16):
            image = tried.try_both(f"{kept.name} {region_log}", kept.read_bytes(), region_log, 7)
            described = kept.with_suffix(".txt")
            if described.exists():
                wrong = objects_from(image, described.read_text().splitlines()) if image else "no image"
                tried.note(not wrong, f"{kept.name} {region_log}, its graph", wrong)


def try_written(tried: Imports, count: int) -> None:
    """Dumps that no machine writes: every kind of record, random heaps, beginnings, changed bytes."""
    for id_size in (4, 8):
        for version in ("1.0.1", "1.0.2"):
            tried.try_both(f"small {id_size} {version}", dump_writer.small(id_size, version).text(), 3, 5)
    for seed in range(count):
        draw = random.Random(seed)
        tried.try_both(f"random {seed}", dump_writer.drawn(seed), draw.choice((3, 4, 9, 16)), draw.choice((0, 5)))
    small = dump_writer.small().text()
    for length in range(len(small)):
        tried.try_dump(f"beginning {length}", small[:length])
    for seed in range(count):
        draw = random.Random(seed)
        data = bytearray(dump_writer.small(draw.choice((4, 8))).text())
        for _ in range(draw.choice((1, 1, 2))):
            data[draw.randrange(len(data))] = draw.choice((0, 1, 2, 255, draw.randrange(256)))
        tried.try_dump(f"changed {seed}", bytes(data))


def try_rows(tried: Imports) -> None:
    """Lengths that lie, unknown tags, and other heaps that are none."""
    for id_size in (4, 8):
        writer = dump_writer.Writer(id_size)
        array = writer.primitives(64, 8, [1, 2, 3])
        rows = {
            "more bytes than there are": writer.primitives(64, 8, [1], 0xFFFF_FFFF),
            "more references than there are": writer.references(64, [1], 0xFFFF_FFFF),
            "a longer instance than there is": writer.class_(8) + writer.instance(64, 8, [], 0xFFFF_FFFF),
            "an unknown tag": array + b"\x99" + bytes(30),
            "a wrong type": writer.primitives(64, 8, [])[:-1] + b"\x03",
            "references as primitive values": writer.primitives(64, 8, [])[:-1] + b"\x02",
            "null": writer.references(0, []),
            "one id twice": array + array,
            "no class": writer.instance(64, 8),
            "a class above itself": writer.class_(8, 16) + writer.class_(16, 8) + writer.instance(64, 8),
            "a class above it is missing": writer.class_(8, 16) + writer.instance(64, 8),
            "too short an instance": writer.class_(8, 0, [2, 4]) + writer.instance(64, 8, [(4, 1)]),
            "too long an instance": writer.class_(8, 0, [2, 4]) + writer.instance(64, 8, [(2, 1), (4, 1), (4, 1)]),
            "a record cut by its segment": array[:-1],
        }
        for name, heap in rows.items():
            dump = dump_writer.Writer(id_size).record(0x0C, heap).text()
            tried.try_dump(f"{name}, ids of {id_size} bytes", dump)
        for name, dump in {
            "nothing": b"", "no heap": dump_writer.Writer(id_size).record(0x01, bytes(9)).text(),
            "no end": dump_writer.Writer(id_size).record(0x1C, array).text(),
            "a record longer than the dump": dump_writer.Writer(id_size).record(0x0C, array).text()[:-2],
            "another version": dump_writer.Writer(id_size, "1.0.3").record(0x0C, array).text(),
            "ids of two bytes": dump_writer.Writer(id_size).text()[:19] + bytes((0, 0, 0, 2)) + bytes(8),
        }.items():
            tried.try_dump(f"{name}, ids of {id_size} bytes", dump)


def try_ends(tried: Imports) -> None:
    """Heaps in records of each kind and order: up to four records, of which each may be a whole heap, a segment, an end, or
    of another kind."""
    for count in range(5):
        for tags in itertools.product((0x0C, 0x1C, 0x2C, 0x01), repeat=count):
            writer = dump_writer.Writer()
            for at, tag in enumerate(tags):
                writer.record(tag, writer.primitives(64 * (at + 1), 8, [at]) if tag in (0x0C, 0x1C) else bytes(tag == 0x01))
            tried.try_dump(f"records {bytes(tags).hex(' ')}", writer.text())


def try_repeats(tried: Imports, count: int) -> None:
    """Dumps in which objects have one id, near to each other and far apart, with other mistakes before and behind them."""
    writer = dump_writer.Writer()
    kinds = (lambda id_: writer.primitives(id_, 8, [7]), lambda id_: writer.references(id_, [8, 16]),
             lambda id_: writer.class_(id_, 0, [2], [(2, 8)], [(9, 1)]), lambda id_: writer.instance(id_, 8, [(2, 16)]))
    for seed in range(count):
        draw = random.Random(seed)
        pieces = [kinds[2](8)] + [draw.choice(kinds)(draw.randrange(2, 30) * 8) for _ in range(draw.randrange(2, 9))]
        if draw.random() < 0.3:
            pieces.insert(draw.randrange(1, len(pieces) + 1), b"\x99")
        tried.try_dump(f"repeats {seed}", dump_writer.Writer().record(0x0C, b"".join(pieces)).text())
    # More than 65,536 objects, where two with one id are looked for before the dump ends.
    ids = [8 * at for at in random.Random(7).sample(range(1, 200_000), 140_000)]
    for first, second in ((0, 1), (0, 65_535), (0, 65_536), (65_534, 65_536), (3, 131_071), (65_540, 131_073), (9, 139_999)):
        repeated = list(ids)
        repeated[second] = ids[first]
        # One more, behind it.
        repeated[139_999] = ids[2] if second < 139_999 else ids[first]
        text = b"".join(writer.primitives(id_, 8, []) for id_ in repeated)
        tried.try_dump(f"objects {first} and {second} are one", dump_writer.Writer().record(0x0C, text).text())


def records_of(pattern: bytes, count: int, fields: dict[int, collections.abc.Iterable[int]]) -> bytes:
    """So many copies of a record, with a number of four bytes of its own for each at these places."""
    text = bytearray(pattern * count)
    for place, numbers in fields.items():
        packed = struct.pack(f">{count}I", *numbers)
        for byte in range(4):
            text[place + byte::len(pattern)] = packed[byte::4]
    return bytes(text)


def dear_dumps(size: int) -> collections.abc.Iterator[tuple[str, bytes]]:
    """Dumps of about so many bytes, each with much of what takes most time or memory for its bytes."""
    writer = dump_writer.Writer(4)
    array = writer.primitives(0, 8, [])
    count = size // len(array)
    draw = random.Random(1)
    products = (at * 2654435761 % 2**32 for at in range(1, 2**32))
    orders = {
        "ascend": range(8, 8 + count), "fall": range(count + 8, 8, -1), "multiples": itertools.islice(products, count),
        "random": draw.sample(range(1, 2**32), count),
        "close, and one far away": (*range(8, 7 + count), 2**32 - 1),
        "half and half": (*range(8, 8 + count // 2), *range(2**31, 2**31 + count - count // 2)),
        "up and down": (8 + (at if at % 2 else 2 * count - at) for at in range(count)),
    }
    for name, ids in orders.items():
        yield f"arrays whose ids {name}", records_of(array, count, {1: ids})
    # Fewer, as it takes long to find such ids.
    count = size // len(array) // 8
    yield "arrays whose ids are hashed alike", records_of(array, count, {1: itertools.islice(hashed_alike(count), count)})
    instance = writer.instance(0, 0)
    count = size // len(instance)
    yield "instances of classes that are missing", records_of(
        instance, count, {1: range(8, 8 + 8 * count, 8), 9: range(2**31, 2**31 + count)})
    class_ = writer.class_(0)
    count = size // len(class_)
    ids = range(8, 8 + 40 * count, 40)
    for name, parents in {"in a chain, the lowest first": (*ids[1:], 0), "in a chain, the highest first": (0, *ids[:-1]),
                          "above themselves": ids, "in a circle": (*ids[1:], ids[0]),
                          "in circles of two": (ids[min(at ^ 1, count - 1)] for at in range(count))}.items():
        yield f"classes {name}", records_of(class_, count, {1: ids, 9: parents})
    root = writer.root(0x05, 0)
    count = size // len(root)
    yield "roots to nothing", records_of(root, count, {1: range(8, 8 + count)})
    yield "roots to one object", writer.primitives(8, 8, []) + records_of(root, count, {1: (8 for _ in range(count))})
    pair = array + root
    count = size // len(pair)
    yield "roots to each object", records_of(pair, count, {1: range(8, 8 + 8 * count, 8), len(array) + 1: range(8, 8 + 8 * count, 8)})
    count = size // 4
    yield "references", writer.references(8, [], count) + records_of(bytes(4), count, {0: (8 for _ in range(count))})


def hashed_alike(count: int) -> collections.abc.Iterator[int]:
    """Ids that a usual hash without a key of its own puts into few places of a table: a product of 64 bits by a constant,
    its halves added without carries."""
    groups = 1
    while 9 * groups < count:
        groups *= 2
    window = max(1, groups // 16)
    for at in range(1, 2**32):
        id_ = at * 2654435761 % 2**32
        product = (id_ ^ 0x243F6A8885A308D3) * (0x9E3779B97F4A7C15 ^ 16)
        mixed = (product ^ product >> 64) & 2**64 - 1
        if id_ and (mixed ^ mixed >> 32) & groups - 1 < window:
            yield id_


def try_dear(tried: Imports) -> None:
    """Dumps of 16 MB that were made to be dear: each is done in 2 seconds of processor time, or on a slow machine in 8 times what
    the first takes, and in memory of 3 times its size and 64 MiB."""
    seconds = 2.0
    for name, heap in dear_dumps(16_000_000):
        dump = tried.folder / "dump"
        dump.write_bytes(dump_writer.Writer(4).record(0x0C, heap).text())
        most = 3 * len(heap) + (64 << 20)
        for words in ([], ["--live-only"]):
            taken = measured([tried.program, "import", dump, tried.folder / "image", *words], SECONDS,
                             stdout=subprocess.DEVNULL, stderr=subprocess.DEVNULL)
            tried.note(taken.status in (0, 1) and taken.processor < seconds and taken.memory <= most, f"{name} {words}",
                       f"status {taken.status}, {taken.processor:.2f} s of processor time, {taken.memory >> 20} MiB, "
                       f"{most >> 20} are the most")
            if name.endswith("ids ascend"):
                seconds = max(seconds, 8 * taken.processor)


def objects_from(image: bytes, described: list[str]) -> str:
    """Compares the objects of an image that are reached from the marked one with those that the machine tells, and answers
    what is wrong."""
    words = [int.from_bytes(image[at:at + 8], "little") for at in range(32, 32 + 8 * int.from_bytes(image[16:24], "little"), 8)]
    mark = int.from_bytes(bytes.fromhex(described[0].split()[-1]), "little")
    marked = [at - 2 for at, word in enumerate(words) if word == mark and words[at - 2] == 1 << 56 | 1 << 32 | 3]
    if len(marked) != 1:
        return f"{len(marked)} marked objects"
    met, numbers = marked, {marked[0]: 0}
    for number, line in enumerate(described):
        if number >= len(met):
            return f"object {number} isn't met"
        at = met[number]
        size, count = words[at] & 0xFFFF_FFFF, words[at] >> 32 & 0xFF_FFFF
        leads = []
        for reference in words[at + 1:at + 1 + count]:
            if reference and numbers.setdefault(reference - 1, len(met)) == len(met):
                met.append(reference - 1)
            leads.append(str(numbers[reference - 1]) if reference else "-")
        data = b"".join(word.to_bytes(8, "little") for word in words[at + 1 + count:at + size]).hex()
        told, _, bytes_told = line.partition(" :")
        found = " ".join((str(size), *leads))
        if found != told or data != bytes_told.strip().ljust(len(data), "0"):
            return f"object {number} is {found} : {data}, not {line}"
    return ""


def try_machine(tried: Imports) -> None:
    """Dumps of the Java machine, by each way in which it writes one."""
    if not (shutil.which("java") and shutil.which("javac")):
        print("no Java machine here: its own dumps are left out")
        return
    classes = tried.folder / "classes"
    subprocess.run(["javac", "-d", classes, TOP / "tests" / "support" / "Graph.java"], check=True)
    for name, how in {"live, serial": ("live", "-XX:+UseSerialGC"), "all, serial": ("all", "-XX:+UseSerialGC"),
                      "live, G1": ("live", "-XX:+UseG1GC"), "all, parallel, wide": ("all", "-XX:+UseParallelGC", "-XX:-UseCompressedOops")}.items():
        dump = tried.folder / "machine.hprof"
        dump.unlink(missing_ok=True)
        java = ["java", "-Xmx24m", *how[1:], "-cp", classes, "Graph", dump, how[0]]
        try_graph(tried, name, dump, subprocess.run(java, check=True, capture_output=True, text=True).stdout)
    for tool in ("jmap", "jcmd"):
        if shutil.which(tool):
            try_tool(tried, classes, tool)
    fallen = tried.folder / "fallen.hprof"
    java = ["java", "-Xmx8m", "-XX:+UseSerialGC", "-XX:+HeapDumpOnOutOfMemoryError", f"-XX:HeapDumpPath={fallen}",
            "-cp", classes, "Graph", "-", "fill"]
    done = subprocess.run(java, capture_output=True, text=True)
    lines = [line for line in done.stdout.splitlines() if " :" in line]
    try_graph(tried, "out of memory", fallen, "\n".join(lines))


def try_tool(tried: Imports, classes: pathlib.Path, tool: str) -> None:
    """A dump that a tool takes of a machine that waits."""
    dump = tried.folder / f"{tool}.hprof"
    java = subprocess.Popen(["java", "-Xmx24m", "-cp", classes, "Graph", "-", "wait"], stdin=subprocess.PIPE,
                            stdout=subprocess.PIPE, text=True)
    lines = []
    for line in java.stdout:
        if line == "waiting\n":
            break
        lines.append(line)
    words = {"jmap": ["-dump:format=b,file=" + os.fspath(dump), str(java.pid)],
             "jcmd": [str(java.pid), "GC.heap_dump", os.fspath(dump)]}[tool]
    subprocess.run([tool, *words], check=True, capture_output=True)
    java.communicate("\n")
    try_graph(tried, tool, dump, "".join(lines))


def try_graph(tried: Imports, name: str, dump: pathlib.Path, described: str) -> None:
    """A machine's dump: as the model says, and with the objects that the machine tells."""
    data = dump.read_bytes()
    image = tried.try_both(name, data)
    wrong = objects_from(image, described.splitlines()) if image else "no image"
    tried.note(not wrong, f"{name}, its graph", wrong)
    # With regions of eight words this is too large.
    tried.try_dump(f"{name}, small regions", data, 3)


def main() -> int:
    words = argparse.ArgumentParser(description=__doc__, formatter_class=argparse.RawDescriptionHelpFormatter)
    words.add_argument("program", nargs="?", type=pathlib.Path)
    words.add_argument("--count", type=int, default=300)
    given = words.parse_args()
    with tempfile.TemporaryDirectory() as folder:
        tried = Imports(given.program or built(), pathlib.Path(folder))
        try_kept(tried)
        try_rows(tried)
        try_ends(tried)
        try_repeats(tried, given.count)
        try_written(tried, given.count)
        try_dear(tried)
        try_machine(tried)
    print(f"{tried.count - tried.wrong} passed, {tried.wrong} failed")
    return 1 if tried.wrong else 0


if __name__ == "__main__":
    sys.exit(main())
