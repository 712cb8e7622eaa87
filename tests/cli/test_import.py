#!/usr/bin/env python3
"""Runs `import` over heap dumps. test_imported_heaps.py compares what comes of many more.

usage: tests/cli/test_import.py [PROGRAM]
"""
import dataclasses
import itertools
import json
import os
import pathlib
import re
import struct
import subprocess
import sys

# Finds the package `tests` from any folder, and writes nothing beside its modules.
sys.dont_write_bytecode = True
sys.path.insert(0, str(pathlib.Path(__file__).resolve().parents[2]))
from tests.models import dump as dump_model
from tests.models import image as model
from tests.support import dump_writer
from tests.support.cases import try_groups
from tests.support.program import TOP, Answer, Tried, fault, usage

DUMP = dump_writer.small().text()
FULL = pathlib.Path("/dev/full")
FAULT_13 = "13 input or output"
OLD = b"what stood there before" * 40
CUT = f"byte {len(DUMP) - 1}: the dump ends here, inside a record"
NAME = "byte 0: this is no heap dump of version 1.0.1 or 1.0.2"
SAME = Answer(2, err="pcompact: same file\n")
IRREGULAR = Answer(2, err="pcompact: not a regular file\n")
PHASES = ("read", "check", "write", "finish", "total")


# A dump with an object of each kind, worked by hand: a gap of a word behind the class, one of 513 before the last array, roots
# and references that lead nowhere. Its image in regions of 8 words with allowance 5, as text, and that of its live objects.
SAMPLE_TEXT = f"""\
heap version 2
region-log 3
words 24
allowance 5
roots @7 @10
@0 dead 7 words {model.header(6, 5)} 0 0 0 0 8 0
@7 object 3 refs @14 data 67305985
@10 object 4 refs @7 null null
@14 object 3 data 578437695752307201 9
@17 dead 7 of 0
"""
SAMPLE_LINE = "words 24 objects 4 roots 2 live 3 dead 1 dropped-gaps 1 unresolved 2\n"
LIVE_TEXT = """\
heap version 2
region-log 3
words 16
allowance 5
roots @0 @3
@0 object 3 refs @7 data 67305985
@3 object 4 refs @0 null null
@7 object 3 data 578437695752307201 9
@10 dead 6 of 0
"""
LIVE_LINE = "words 16 objects 3 roots 2 live 3 dead 0 dropped-gaps 0 unresolved 2\n"


def sample() -> bytes:
    writer = dump_writer.Writer()
    writer.record(0x01, b"name")
    heap = b"".join(writer.root(tag, id_) for tag, id_ in ((0x08, 312), (0x05, 312), (0x01, 336), (0xFF, 999), (0x07, 0)))
    heap += writer.instance(312, 256, [(2, 4472), (10, 0x01020304)]) + writer.references(336, [312, 0, 999])
    writer.record(0x1C, heap)
    writer.record(0x1C, writer.primitives(4472, 8, list(range(1, 10))) + writer.class_(256, 0, [2, 10], [(2, 312)]))
    return writer.record(0x2C, b"").text()


def heap_dump(*pieces: bytes) -> bytes:
    """A dump with these records of its heap."""
    return dump_writer.Writer().record(0x0C, b"".join(pieces)).text()


def malformed_dumps() -> list[tuple[bytes, str]]:
    """Dumps with one mistake, and what is said of each."""
    to = dump_writer.Writer()
    no_class = "the class of this object, or one above it, is not in the dump or is above itself"
    other_size = "an instance of 1 bytes, where the fields of its class have another number"
    return [
        (heap_dump(b"\x09", to.id(1)), "byte 40: tag 9 is that of no record of a heap"),
        (heap_dump(to.references(0, [])), "byte 40: an object with id 0, which is null"),
        (heap_dump(to.references(8, []), to.primitives(8, 8, [])), "byte 65: a second object with id 8"),
        (heap_dump(to.instance(8, 16)), f"byte 40: {no_class}"),
        (heap_dump(to.instance(8, 16, [(8, 1)]), to.class_(16, 0, [5], [(2, 0)])), f"byte 40: {other_size}"),
        (dump_writer.Writer().record(0x77, b"\1\2\3").text(), "byte 43: the dump ends without a heap"),
        (dump_writer.Writer().record(0x2C, b"").text(), "byte 40: the dump ends without a heap"),
        (dump_writer.Writer().record(0x1C, b"").text(), "byte 40: the dump ends without the end of its heap"),
        (dump_writer.Writer().record(0x1C, b"").record(0x0C, b"").text(), "byte 49: the dump ends without the end of its heap"),
    ]


def imported(data: bytes, name: str = "out", **options) -> Answer:
    """What a good import of this dump answers and makes."""
    made = dump_model.make(data, **options)
    return Answer(0, f"{made.line}\n", made={name: made.image})


def refused(text: str, made: dict[str, bytes | None] | None = None) -> Answer:
    return Answer(1, err=f"pcompact: {text}\n", made=made or {})


def try_imports(tried: Tried) -> None:
    """Dumps as images, with each option, and what the other commands make of these."""
    tried.write("dump", DUMP)
    tried.run("import dump out", imported(DUMP))
    for log in (3, 9, 16, 17, 20):
        tried.run(f"import dump out --region-log {log}", imported(DUMP, region_log=log))
    for version, log in ((2, 3), (2, 9), (2, 16), (3, 3), (3, 9), (3, 20)):
        tried.run(f"import dump out --version {version} --region-log {log}", imported(DUMP, region_log=log, version=version))
        tried.run(f"import dump out --version {version} --region-log {log} --live-only",
                  imported(DUMP, region_log=log, live_only=True, version=version))
    tried.run("import dump out --version 2 --region-log 17", refused("region log 17, where 3 to 16 are allowed", {"out": None}))
    tried.run("import dump out --allowance 18446744073709551615", imported(DUMP, allowance=2**64 - 1))
    tried.run("import --live-only dump out", imported(DUMP, live_only=True))
    for flags in ("--verbose", "--atomic", "--atomic --verbose"):
        tried.run(f"import dump {flags} out --live-only --region-log=4 --allowance=5",
                  imported(DUMP, region_log=4, allowance=5, live_only=True))
    # A file that is longer than the image.
    tried.write("longer", DUMP * 40)
    tried.run("import dump longer --region-log 3", Answer(0, imported(DUMP, region_log=3).out))
    if tried.read("longer") != dump_model.make(DUMP, 3).image:
        tried.is_wrong("a file is not emptied before an image is written")
    for kept in sorted((TOP / "examples" / "dumps").glob("*.hprof")):
        try_collected(tried, kept.read_bytes())


def try_collected(tried: Tried, data: bytes) -> None:
    """An imported heap, whole and of its live objects alone, and what a collection makes of it."""
    tried.write("dump", data)
    whole, live = dump_model.make(data, 6), dump_model.make(data, 6, live_only=True)
    tried.run("import dump whole --region-log 6", Answer(0, f"{whole.line}\n", made={"whole": whole.image}))
    tried.run("import dump live --region-log 6 --live-only", Answer(0, f"{live.line}\n", made={"live": live.image}))
    after = model.Collection(model.decode(whole.image))
    tried.run("summary whole", Answer(0, after.report()))
    tried.run("collect whole out --workers 2", Answer(0, after.figures(), made={"out": model.encode(after.compaction())}))


def timings(data: bytes) -> re.Pattern:
    """What --stats prints of the import of an image with these bytes: its MiB, and the share of live words."""
    image = model.decode(data)
    words = len(image.words)
    live = sum(image.end(address) - address for address in image.live())
    tenths = (1000 * live + words // 2) // words
    mib = (80 * words + 2**19) // 2**20
    return re.compile("".join(rf"pcompact: {phase} \d+\.\d ms\n" for phase in PHASES)
                      + rf"pcompact: heap {mib // 10}\.{mib % 10} MiB, {tenths // 10}\.{tenths % 10} per cent live\n"
                      + r"pcompact: threads 1\npcompact: peak memory \d+\.\d MiB\n")


# The columns of a histogram in an object.
COLUMNS = ("live_objects", "live_bytes", "dead_objects", "dead_bytes", "machine_bytes")


def try_object(tried: Tried, words: str, line: str, histogram: str = "") -> None:
    """With --json the line and the histogram are an object."""
    figures = line.split()
    wanted = {name.replace("-", "_"): int(number) for name, number in zip(figures[::2], figures[1::2], strict=True)}
    rows = [row.split() for row in itertools.takewhile(lambda row: not row.startswith("total"), histogram.splitlines()[1:])]
    if histogram:
        wanted["classes"] = [{**dict(zip(COLUMNS, map(int, row[1:6]))), "class": row[6]} for row in rows]
    done = subprocess.run([tried.program, *words.split(), "--json"], cwd=tried.folder, capture_output=True, text=True)
    tried.count += 1
    if done.returncode or done.stderr or done.stdout.count("\n") != 1 or json.loads(done.stdout) != wanted:
        tried.is_wrong(f"pcompact {words} --json: {done}")


def try_lists(tried: Tried) -> None:
    """The list of objects and the histogram of classes, of each kept dump and of a written one, as the model has them; from a pipe
    too."""
    for data in (DUMP, *(kept.read_bytes() for kept in sorted((TOP / "examples" / "dumps").glob("*.hprof")))):
        tried.write("dump", data)
        for flag, live_only in (("", False), (" --live-only", True)):
            lists, made = dump_model.lists(data, live_only=live_only, rows=7), dump_model.make(data, live_only=live_only)
            line, image, times = f"{made.line}\n", {"out": made.image}, timings(made.image)
            both = {**image, "list": lists.objects.encode()}
            for name, given in (("dump", None), ("-", data)):
                tried.run(f"import {name} out{flag} --classes list", Answer(0, line, made=both), input=given)
                tried.run(f"import {name} out{flag} --classes list --histogram 7 --atomic",
                          Answer(0, line + lists.histogram, made=both), input=given)
                tried.run(f"import {name} out{flag} --histogram 7", Answer(0, line + lists.histogram, made=image), input=given)
                tried.run(f"import {name} out{flag} --stats", Answer(0, line, times, image), input=given)
            try_object(tried, f"import dump out{flag}", line)
            for more in ("", " --classes list", " --classes list --atomic"):
                try_object(tried, f"import dump out{flag} --histogram 7{more}", line, lists.histogram)
                tried.run(f"import {name} out{flag} --stats --histogram 7", Answer(0, line + lists.histogram, times, image), input=given)
    try_list_files(tried)


def weak_dump() -> bytes:
    """References of each kind, from roots: 2000 and 2100 weakly to 3000 and 3100, of which the latter has a root; 2200 softly to 3200, and
    2300, of a class below, to 3300, beside a field of its own to 3400; 3000 leads to 2400, which leads weakly back to it."""
    writer = dump_writer.Writer()
    names = (b"referent", b"java/lang/ref/Reference", b"java/lang/ref/SoftReference", b"java/lang/ref/WeakReference", b"Keyed", b"java/lang/Class")
    classes = (0, 256, 512, 768, 1024, 1280)
    for text, (name, class_) in enumerate(zip(names, classes), 2):
        writer.name(text, name, class_)
    heap = [writer.class_(256, 0, [2, 2, 2], names=[1, 2, 1]), writer.class_(512, 256, [11]), writer.class_(768, 256),
            writer.class_(1024, 768, [10, 2], names=[1, 2]), writer.class_(1280, 0, [2])]
    rows = ((2000, 768, [(2, 0), (2, 3000), (2, 0)]), (2100, 768, [(2, 2000), (2, 3100), (2, 0)]),
            (2200, 512, [(11, 5), (2, 0), (2, 3200), (2, 0)]), (2300, 1024, [(10, 7), (2, 3400), (2, 0), (2, 3300), (2, 9999)]),
            (2400, 768, [(2, 0), (2, 3000), (2, 0)]), (2500, 768, [(2, 0), (2, 8888), (2, 0)]))
    heap += [writer.instance(*row) for row in rows]
    heap += [writer.references(id_, [2400] if id_ == 3000 else []) for id_ in (3000, 3100, 3200, 3300, 3400)]
    heap += [writer.root(0x05, id_) for id_ in (2000, 2100, 2200, 2300, 2500, 3100)]
    return writer.record(0x0C, b"".join(heap)).text()


# Of `weak_dump`, worked by hand: the objects that live, by their ids.
LIVING = {"": {2000, 2100, 2200, 2300, 2400, 2500, 3000, 3100, 3200, 3300, 3400},
          " --weak": {2000, 2100, 2200, 2300, 2500, 3100, 3200, 3400},
          " --weak-soft": {2000, 2100, 2200, 2300, 2500, 3100, 3400}}
FOLLOWED = {"": "all", " --weak": "soft", " --weak-soft": "strong"}


def try_weak(tried: Tried) -> None:
    """References that aren't followed, as worked by hand and as the model has them; alone, and with each other option."""
    tried.write("dump", weak_dump())
    for (flag, living), live_only, packs in itertools.product(LIVING.items(), (False, True), (False, True)):
        options = {"live_only": live_only, "followed": FOLLOWED[flag], "packs": packs}
        lists, made = dump_model.lists(weak_dump(), **options), dump_model.make(weak_dump(), **options)
        words = f"import dump out{flag}{' --live-only' * live_only}{' --pack' * packs}"
        tried.run(words, Answer(0, f"{made.line}\n", made={"out": made.image}))
        tried.run(f"{words} --classes list --histogram 9",
                  Answer(0, f"{made.line}\n{lists.histogram}", made={"out": made.image, "list": lists.objects.encode()}))
        told = {int(row.split()[1], 16) for row in tried.read("list").decode().splitlines() if row.endswith(" live")}
        if told != living:
            tried.is_wrong(f"{words}: the live objects are {sorted(told)}")
    # The last flag decides.
    tried.run("import dump out --weak --weak-soft", imported(weak_dump(), followed="strong"))


def packed_dump(wide: int) -> bytes:
    """A class, instances of another and of `java.lang.Class`, arrays, and that class, each with the most padding behind it and `wide`
    words."""
    writer, ids, at = dump_writer.Writer(), [], 256
    writer.name(1, b"java/lang/Class", 256)
    for words, padding in ((5, 17), (1, 1), (1, 17), (2, 2), (1, 2)):
        ids.append(at)
        at += 8 * (words + padding + wide)
    heap = writer.class_(ids[0]) + writer.instance(ids[1], at) + writer.instance(ids[2], ids[0]) + writer.primitives(ids[3], 8, [1])
    return writer.record(0x0C, heap + writer.references(ids[4], []) + writer.class_(at)).text()


def try_packed(tried: Tried) -> None:
    """Objects that touch in the machine touch in the image, and a word more keeps them apart: by hand, and as the model has it."""
    for wide, addresses in ((0, [0, 5, 6, 7, 9, 10]), (1, [0, 23, 26, 45, 50, 54])):
        data = packed_dump(wide)
        tried.write("dump", data)
        lists, made = dump_model.lists(data, packs=True), dump_model.make(data, packs=True)
        tried.run("import dump out --pack --classes list --histogram 9",
                  Answer(0, f"{made.line}\n{lists.histogram}", made={"out": made.image, "list": lists.objects.encode()}))
        told = [int(row.split()[0]) for row in tried.read("list").decode().splitlines()]
        if told != addresses:
            tried.is_wrong(f"--pack, {wide} words more: the addresses are {told}")


def try_list_files(tried: Tried) -> None:
    """The file of a list that is another of the command or can't be written, and a list of a dump that gives no image."""
    tried.write("dump", DUMP)
    for name in ("dump", "out", "./dump", "./out"):
        tried.run(f"import dump out --classes {name}", SAME)
    for name in ("nothing/list", "/proc/self/mem/list"):
        tried.run(f"import dump out --classes {name}", fault(FAULT_13, {"out": None}))
    tried.run("import dump out --classes /dev/full", fault(FAULT_13, imported(DUMP).made))
    tried.write("list", OLD)
    tried.write("cut", DUMP[:-1])
    for data in ("", " --atomic"):
        tried.run(f"import cut out --classes list{data}", refused(CUT, {"out": None}))
        if tried.read("list") != OLD:
            tried.is_wrong(f"import --classes list{data}: the list is changed where the dump gives no image")
    # The list doesn't get the name of the image's place, nor the image that of the list's.
    for image, other in ((".pcompact-0.tmp", "list"), ("out", ".pcompact-0.tmp"), (".pcompact-0.tmp", ".pcompact-1.tmp")):
        lists = dump_model.lists(DUMP).objects.encode()
        tried.run(f"import dump {image} --classes {other} --atomic", Answer(0, imported(DUMP).out, made={**imported(DUMP, image).made, other: lists}))


def named_dump(id_size: int, names: list[bytes], count: int) -> bytes:
    """A dump with classes of these names, and this many instances of each, as small as objects are."""
    to = dump_writer.Writer(id_size)
    classes = range(64, 64 + 64 * len(names), 64)
    for number, (class_, name) in enumerate(zip(classes, names), 1):
        to.record(0x01, to.id(number) + name)
        to.record(0x02, struct.pack(">I", number) + to.id(class_) + bytes(4) + to.id(number))
    heap = [to.class_(class_) for class_ in classes]
    heap += [to.instance(65_536 + 8 * (count * at + i), class_) for at, class_ in enumerate(classes) for i in range(count)]
    return to.record(0x0C, b"".join(heap)).text()


def try_long_names(tried: Tried) -> None:
    """Names with quotes, around the most bytes that are shown, alike up to there, of what takes four bytes each, and longer than any machine has:
    the lists are the model's, and no longer than the multiple of the dump in docs/PROMISES.md."""
    most = dump_model.MOST_SHOWN
    names = [b'-"\\"' * 100, b"a" * (most - 1), b"b" * most, b"c" * most + b"1", b"c" * most + b"2", b"\\" * (most + 1), b"/" * 65_536,
             b"[L" + b"x" * 200_000, b"java/lang/Class" + b"/" * most, b"\n" * most + b"live\n"]
    # The last row is the worst: the smallest objects, and each byte of the name printed as `\xNN`.
    for id_size, part, count in ((4, names, 3), (8, names, 3), (8, names[-3:-2], 2000), (4, [b"\0" * 501], 2000)):
        data = named_dump(id_size, part, count)
        tried.write("dump", data)
        lists, made = dump_model.lists(data, rows=9), dump_model.make(data)
        both = {"out": made.image, "list": lists.objects.encode()}
        tried.run("import dump out --classes list --histogram 9", Answer(0, f"{made.line}\n{lists.histogram}", made=both))
        try_object(tried, "import dump out --histogram 9", made.line, lists.histogram)
        told = len(tried.read("list"))
        if told > 123 * len(data) or lists.objects.count("\n") != int(made.line.split()[3]):
            tried.is_wrong(f"a list of {told} bytes of a dump of {len(data)}, {lists.objects.count(chr(10))} rows: {made.line}")


def try_sample(tried: Tried) -> None:
    """The dump that was worked by hand, whole and of its live objects alone; and each beginning of it."""
    tried.write("dump", sample())
    for words, line, text in (("", SAMPLE_LINE, SAMPLE_TEXT), (" --live-only", LIVE_LINE, LIVE_TEXT)):
        tried.run(f"import dump out --region-log 3 --allowance 5{words}", Answer(0, line))
        tried.run("text out", Answer(0, text))
    for length in range(len(sample())):
        tried.write("dump", sample()[:length])
        told = re.compile(rf"pcompact: byte {length}: .+\n")
        tried.run("import dump out --region-log 3", Answer(1, err=told, made={"out": None}))


def try_malformed_dumps(tried: Tried) -> None:
    """Dumps with one mistake, and heaps that have too many words."""
    for data, said in malformed_dumps():
        tried.write("dump", data)
        tried.run("import dump out --region-log 3", refused(said, {"out": None}))
    to = dump_writer.Writer()
    heap = [to.primitives(8, 11, [0] * 131_072), to.references(4_000_000, []), to.root(0x05, 4_000_000)]
    tried.write("dump", heap_dump(*heap))
    many = "131074 words, and 131072 are the most"
    tried.run("import dump out --version 2 --region-log 3", refused(f"the heap has {many}; with --live-only it has 1", {"out": None}))
    tried.run("import dump out --version 2 --region-log 3 --live-only",
              imported(heap_dump(*heap), region_log=3, live_only=True, version=2))
    tried.write("dump", heap_dump(*heap, to.root(0x05, 8)))
    tried.run("import dump out --version 2 --region-log 3 --live-only", refused(f"the reachable objects have {many}", {"out": None}))


def try_most_words(tried: Tried) -> None:
    """Heaps of exactly the most words that an image of version 2 may have, and of one more: with regions of 8 words, and with
    the usual ones. Without a version the larger ones are of version 3."""
    to = dump_writer.Writer()
    for words, most in ((" --region-log 3", 131_072), ("", 4_194_304)):
        for count in (most, most + 1):
            # A heap of one array, and with an object behind it that no root reaches.
            array = to.root(0x05, 8) + to.primitives(8, 11, [], count - 1) + bytes(8 * (count - 1))
            told = f"words {count} objects 1 roots 1 live 1 dead 0 dropped-gaps 0 unresolved 0\n"
            many = f"{count} words, and {most} are the most"
            whole = Answer(0, told) if count == most else refused(f"the heap has {many}; with --live-only it has {count}", {"out": None})
            live = Answer(0, told) if count == most else refused(f"the reachable objects have {many}", {"out": None})
            log, version = (3 if words else 9), (2 if count == most else 3)
            total = -(-count >> log) << log
            told = f"words {total} objects 1 roots 1 live 1 dead 0 dropped-gaps 0 unresolved 0\n"
            begin = struct.pack("<8sIIQQ", b"PCHEAP0%d" % version, log, 1, total, 0)
            for flag, data, answer in (("", heap_dump(array), whole), (" --live-only", heap_dump(array, to.references(2**40, [8])), live)):
                tried.write("dump", data)
                tried.run(f"import dump out{flag}{words} --version 2", answer)
                tried.run(f"import dump out{flag}{words}", Answer(0, told))
                if not tried.read("out").startswith(begin):
                    tried.is_wrong(f"import of {count} words{flag}{words}: the image begins with {tried.read('out')[:32]!r}")


def try_widest_array(tried: Tried) -> None:
    """An array with one reference more than a header counts: of that there is no image, but `--live-only` leaves it out where no root
    reaches it."""
    to, count = dump_writer.Writer(4), 2**24
    heap = to.references(64, []) + to.references(128, [], count) + to.id(64) * count
    said = refused(f"an object has {count} references, and {count - 1} are the most", {"out": None})
    alone = Answer(0, "words 512 objects 1 roots 1 live 1 dead 0 dropped-gaps 0 unresolved 0\n")
    for root, live_only in ((128, said), (64, alone)):
        tried.write("dump", dump_writer.Writer(4).record(0x0C, heap + to.root(0x05, root)).text())
        tried.run("import dump out", said)
        tried.run("import dump out --live-only", live_only)


def try_sparse(tried: Tried) -> None:
    """A heap with more words in gaps than in objects, which has version 3 only where that is requested."""
    to = dump_writer.Writer()
    sparse = heap_dump(*(to.primitives(8 + 4096 * at, 8, []) for at in range(300)), to.root(0x05, 8))
    tried.write("dump", sparse)
    many = "the heap has 153089 words, and 131072 are the most; with --live-only it has 1"
    for version in ("", " --version 2"):
        tried.run(f"import dump out --region-log 3{version}", refused(many, {"out": None}))
    tried.run("import dump out --region-log 3 --version 3", imported(sparse, region_log=3, version=3))
    tried.run("import dump out --region-log 3 --live-only", imported(sparse, region_log=3, live_only=True))
    tried.run("import dump out --region-log 4", imported(sparse, region_log=4))


def try_refused_dumps(tried: Tried) -> None:
    """What is no dump, or is too large, with the file for the image there or not: it stays as it was."""
    large = dump_writer.Writer()
    large.record(0x0C, large.root(0xFF, 64) + large.primitives(64, 8, [7] * 16) + large.primitives(4096, 11, [0] * 131_072))
    whole = large.text()
    rows = [("", b"", "byte 0: the dump ends here, inside a record"), ("", OLD, NAME), ("", DUMP[:-1], CUT),
            ("--live-only", DUMP[:-1], CUT), ("--atomic", DUMP[:-1], CUT),
            ("", dump_writer.Writer().text(), "byte 31: the dump ends without a heap"),
            ("--region-log 3 --version 2", whole, dump_model.make(whole, 3, version=2).line)]
    for words, data, said in rows:
        tried.write("dump", data)
        tried.run(f"import dump out {words}", refused(said, {"out": None}))
        tried.write("old", OLD)
        tried.run(f"import dump old {words}", refused(said))
        if tried.read("old") != OLD:
            tried.is_wrong(f"import {words}: the file is changed where the dump gives no image")
    tried.run("import dump out --region-log 3 --live-only", imported(whole, region_log=3, live_only=True))
    tried.run("import dump out --region-log 3", imported(whole, region_log=3))


def try_import_words(tried: Tried) -> None:
    """Words that are no call of `import`, and the numbers of its options."""
    tried.write("dump", DUMP)
    nothing = {"out": None}
    missing = "error: the following required arguments were not provided:\n"
    tried.run("import dump", usage(f"{missing}  <IMAGE>\n"))
    tried.run("import", usage(f"{missing}  <DUMP>\n  <IMAGE>\n"))
    tried.run("import dump out more", usage("error: unexpected argument 'more' found\n"))
    for option, value, said in (("--region-log <k>", "2", "2 is not in 3..=20"), ("--region-log <k>", "21", "21 is not in 3..=20"),
                                ("--version <v>", "1", "1 is not in 2..=3"), ("--version <v>", "4", "4 is not in 2..=3"),
                                ("--region-log <k>", "nine", "a whole number is wanted"),
                                ("--allowance <m>", "18446744073709551616", "number too large to fit in target type"),
                                ("--allowance <m>", "1.5", "a whole number is wanted, of words of 8 bytes")):
        answer = usage(f"error: invalid value '{value}' for '{option}': {said}\n")
        tried.run(f"import dump out {option.split()[0]} {value}", dataclasses.replace(answer, made=nothing))
    for value, said in (("0", "0 is not in 1..=1000000"), ("1000001", "1000001 is not in 1..=1000000"), ("all", "a whole number is wanted")):
        answer = usage(f"error: invalid value '{value}' for '--histogram <n>': {said}\n")
        tried.run(f"import dump out --histogram {value}", dataclasses.replace(answer, made=nothing))
    named = {"--region-log 3": "--region-log <k>", "--allowance 3": "--allowance <m>", "--histogram 3": "--histogram <n>",
             "--classes list": "--classes <FILE>"}
    for option in (*named, "--live-only"):
        name = named.get(option, option)
        tried.run(f"import dump out {option} {option}", usage(f"error: the argument '{name}' cannot be used multiple times\n"))
        tried.run(f"upgrade base out {option}", usage(f"error: unexpected argument '{option.split()[0]}' found\n"))


def try_import_files(tried: Tried) -> None:
    """Files that aren't there, can't be read or written, are named twice, or can't be read twice."""
    tried.write("dump", DUMP)
    (tried.folder / "folder").mkdir()
    (tried.folder / "hard dump").hardlink_to(tried.folder / "dump")
    for name in ("nothing", "nothing/dump", "dump/image", "/proc/self/mem"):
        tried.run(f"import {name} out", fault(FAULT_13, {"out": None}))
    for name in ("folder", "nothing/out"):
        tried.run(f"import dump {name}", fault(FAULT_13))
    for name in ("dump", "./dump", "hard dump", str(tried.folder / "dump")):
        tried.run(["import", "dump", name], SAME)
        tried.run(["import", name, "dump"], SAME)
    tried.run("import folder out", dataclasses.replace(IRREGULAR, made={"out": None}))
    tried.run("import /dev/stdin out", imported(DUMP), input=DUMP)
    with (tried.folder / "dump").open("rb") as dump:
        tried.run("import /dev/stdin out", imported(DUMP), stdin=dump)
    tried.run("import dump /dev/full", fault(FAULT_13))
    with FULL.open("wb") as full:
        tried.run("import dump out", fault(FAULT_13, imported(DUMP).made), stdout=full)
        tried.run("import dump out --atomic", fault(FAULT_13, {"out": None}), stdout=full)
        tried.write("cut", DUMP[:-1])
        tried.run("import cut out", Answer(1, made={"out": None}), stderr=full)
    who = {"user": "nobody"} if os.geteuid() == 0 else {}
    tried.run("import dump new", fault(FAULT_13, {"new": None}), **who)
    (tried.folder / "dump").chmod(0)
    tried.run("import dump out", fault(FAULT_13, {"out": None}), **who)
    (tried.folder / "dump").chmod(0o600)
    if tried.read("dump") != DUMP:
        tried.is_wrong("a dump that was named twice is changed")


GROUPS = (try_imports, try_lists, try_weak, try_packed, try_long_names, try_sample, try_malformed_dumps, try_most_words, try_widest_array, try_sparse,
          try_refused_dumps, try_import_words, try_import_files)

if __name__ == "__main__":
    sys.exit(try_groups(GROUPS))
