#!/usr/bin/env python3
"""Runs `map`: its rows, worked by hand, its drawings, and how it looks on what it is printed to.

usage: tests/cli/test_map.py [PROGRAM]
"""
import dataclasses
import os
import pathlib
import pty
import re
import subprocess
import sys
import xml.etree.ElementTree

# Finds the package `tests` from any folder, and writes nothing beside its modules.
sys.dont_write_bytecode = True
sys.path.insert(0, str(pathlib.Path(__file__).resolve().parents[2]))
from tests.models import image as model
from tests.models.generated_heap import Wanted, generated
from tests.support.cases import BASE, LIVE, WORDS, image, rooted, try_groups
from tests.support.contrast import over, schemes, worst
from tests.support.program import Answer, Tried, fault, usage
from tests.support.terminal import on_terminal

FULL = pathlib.Path("/dev/full")
FAULT_13 = "13 input or output"
LARGEST = 2**64 - 1
OLD = b"what stood there before" * 4000
SVG = "{http://www.w3.org/2000/svg}"
MAX_BYTES = 300_000

LETTERS = "live: _ none . few : half + most # all\n"
BLOCKS = "live: ▁ none ░ few ▒ half ▓ most █ all\n"


def legend(areas: str, shades: str = LETTERS) -> str:
    """The legend of a picture in which these areas occur."""
    return shades + "area:" + "".join(f" {area} {name}" for area, name in model.AREAS.items() if area in areas) + "\n"


# Of the base heap by its allowance: the figures, and the strips before and after of four cells, region by region.
ROWS = [
    (0, "prefix 0 top 19 filled 3", "+::+", "mmmm", "##:_", "mm--"),
    (1, "prefix 0 top 19 filled 3", "+::+", "mmmm", "##:_", "mm--"),
    (2, "prefix 8 top 21 filled 3", "+::+", "fmmm", "+#:_", "fmm-"),
    (LARGEST, "prefix 24 top 30 filled 4", "+::+", "fffm", "+::+", "fffm"),
]

# Of each word of the base heap with M = 2.
WHOLE = """\
words 32 live 19 dead 13 prefix 8 top 21 filled 3
before |###__####___##______##########__|
       |pppffpppmmmmmmmmmmmmmmmmmmmmmm--|
after  |###__################___________|
       |pppffpppmmmmmmmmmmmmm-----------|
""" + legend("pfm-")
# The same before the collection, in two rows.
IN_ROWS = """\
words 32 live 19 dead 13 prefix 8 top 21 filled 3
before |###__####___##__| 0
       |pppffpppmmmmmmmm| 0.0 MiB
       |____##########__| 16
       |mmmmmmmmmmmmmm--| 0.0 MiB
""" + legend("pfm-")


def environment(**names: str) -> dict[str, str]:
    """The environment with these names of the locale and no others."""
    kept = {name: value for name, value in os.environ.items() if name not in ("LC_ALL", "LC_CTYPE", "LANG")}
    return {**kept, **names}


def try_rows(tried: Tried) -> None:
    """The rows of docs/COMMANDS.md, in each version."""
    for allowance, figures, *strips in ROWS:
        line = f"words 32 live 19 dead 13 {figures}\n"
        shades, areas, new_shades, new_areas = strips
        before = f"before |{shades}|\n       |{areas}|\n"
        after = f"after  |{new_shades}|\n       |{new_areas}|\n"
        roots = [1 + a for a in LIVE]
        for made in (image(WORDS, LIVE, allowance), *(rooted(WORDS, roots, allowance, version=version) for version in (2, 3))):
            tried.write("image", made)
            tried.run("map image --letters --width 4", Answer(0, line + before + legend(areas)))
            tried.run("map --after image --width 4 --letters --verbose", Answer(0, line + before + after + legend(areas + new_areas)))
            tried.run("map image --svg drawn --width 4 --height 1", Answer(0, line))
    tried.write("image", image(WORDS, LIVE, 2))
    # No more cells than words.
    for width in ("", "--width 32", "--width 33", "--width 1000"):
        tried.run(f"map image --after --letters {width}", Answer(0, WHOLE))
    tried.run("map image --letters --width 1", Answer(0, f"{WHOLE.splitlines()[0]}\nbefore |:|\n       |m|\n{legend('m')}"))
    tried.run("map image --letters --width 16 --height 2", Answer(0, IN_ROWS))
    tried.run("map image --letters --width 16 --height 100", Answer(0, IN_ROWS))
    tried.write("image", image([999] * 32, []))
    for width in (2, 3):
        tried.run(f"map image --letters --width {width}", Answer(0, (
            f"words 32 live 0 dead 32 prefix 0 top 0 filled 0\nbefore |{'_' * width}|\n       |{'-' * width}|\n{legend('-')}")))
    # Cells of nine words, by the number that live: shades are thirds.
    lives = {9 * cell: live for cell, live in enumerate((0, 1, 2, 3, 5, 6, 8, 9)) if live}
    words = [999] * 72
    for a, live in lives.items():
        words[a:a + live] = [model.header(live, 0), *[0] * (live - 1)]
    tried.write("image", image(words, list(lives)))
    tried.run("map image --letters --width 8", Answer(0, (
        f"words 72 live 34 dead 38 prefix 0 top 34 filled 5\nbefore |_..::++#|\n       |mmmmmmmm|\n{legend('m')}")))


# Of the base heap by its allowance and the largest number of bands: where its words go.
MOVES = [
    (0, "0 to 2: 3 stay\n5 to 8: 4 go to 3\n12 to 13: 2 go to 7\n20 to 29: 10 go to 9\n"),
    (2, "0 to 2: 3 stay\n5 to 8: 4 stay\n12 to 13: 2 go to 9\n20 to 29: 10 go to 11\n"),
    (LARGEST, "0 to 2: 3 stay\n5 to 8: 4 stay\n12 to 13: 2 stay\n20 to 29: 10 stay\n"),
]


def try_moves(tried: Tried) -> None:
    """Where the words of the base heap go, worked by hand, and those of heaps with more objects, beside a model."""
    for allowance, lines in MOVES:
        tried.write("heap", image(WORDS, LIVE, allowance))
        shown = model.Collection(model.decode(tried.read("heap"))).map(4, False)
        tried.run("map heap --moves --width 4 --letters", Answer(0, f"{shown}moves:\n{lines}"))
    for row in [(4096, 3, 50, 25, 2, 40, 8), (65536, 6, 30, 25, 3, 4000, 9), (65536, 9, 90, 25, 1, 0, 10), (1024, 9, 99, 0, 2, 9, 11)]:
        heap = generated(Wanted(*row))[0]
        collection = model.Collection(heap)
        tried.write("heap", model.encode(heap))
        tried.run("map heap --after --moves --width 64 --letters", Answer(0, collection.map(64, True) + collection.moves()))
        tried.run("map heap --moves --svg heap.svg", Answer(0, collection.map_line()))
        bands = [path for path in drawing(tried, "heap.svg").iter(f"{SVG}path") if path.get("class", "").startswith("band")]
        wanted = [line for line in collection.moves().splitlines()[1:] if not line.endswith("none live")]
        titles = [path.find(f"{SVG}title").text for path in bands]
        if len(titles) != len(wanted) or len(tried.read("heap.svg")) > MAX_BYTES:
            tried.is_wrong(f"a drawing has {len(titles)} bands, where {len(wanted)} have live words")


def try_words(tried: Tried) -> None:
    """Numbers of cells that no map has."""
    for width in ("0", "1001", "4294967296"):
        tried.run(f"map base --width {width}",
                  usage(f"error: invalid value '{width}' for '--width <n>': {width} is not in 1..=1000\n"))
    for height in ("0", "101"):
        tried.run(f"map base --height {height}",
                  usage(f"error: invalid value '{height}' for '--height <n>': {height} is not in 1..=100\n"))
    tried.run("map", usage("error: the following required arguments were not provided:\n  <IMAGE>\n"))
    tried.run("map base --svg", usage("error: a value is required for '--svg <FILE>' but none was supplied\n"))


def try_looks(tried: Tried) -> None:
    """Letters and blocks by the locale, and colours where they are asked for."""
    tried.write("image", image(WORDS, LIVE, 2))
    line = "words 32 live 19 dead 13 prefix 8 top 21 filled 3\n"
    letters = Answer(0, f"{line}before |+::+|\n       |fmmm|\n{legend('fm')}")
    blocks = Answer(0, f"{line}before |▓▒▒▓|\n       |fmmm|\n{legend('fm', BLOCKS)}")
    for names, answer in (({}, letters), ({"LANG": "C"}, letters), ({"LANG": "C.UTF-8"}, blocks),
                          ({"LC_ALL": "", "LC_CTYPE": "de_DE.utf8", "LANG": "C"}, blocks),
                          ({"LC_ALL": "C", "LC_CTYPE": "C.UTF-8", "LANG": "C.UTF-8"}, letters),
                          ({"LC_ALL": "en_US.UTF-8@x" + "y" * 200}, letters)):
        tried.run("map image --width 4", answer, env=environment(**names))
        tried.run("map image --width 4 --letters", letters, env=environment(**names))
        tried.run("map image --width 4 --no-color --color", answer, env=environment(**names))
    before = f"before |{coloured('+::+', BEFORE)}|\n       |{coloured('fmmm', BEFORE)}|\n"
    tried.run("map image --width 4 --letters --color", Answer(0, f"{line}{before}{legend('fm')}"))
    for words, has_colours in WHENS:
        shown = before if has_colours else "before |+::+|\n       |fmmm|\n"
        tried.run(f"map image --width 4 --letters {words}", Answer(0, f"{line}{shown}{legend('fm')}"))
    tried.run("map --color=always -- --color=never", fault("13 input or output"))
    after = f"after  |{coloured('+#:_', AFTER)}|\n       |{coloured('fmm-', AFTER)}|\n"
    tried.run("map image --after --width 4 --letters --color", Answer(0, f"{line}{before}{after}{legend('fm-')}"))
    both = "before |▓▒▒▓|\n       |fmmm|\nafter  |▓█▒▁|\n       |fmm-|\n"
    tried.run("map image --after --width 4", Answer(0, f"{line}{both}{legend('fm-', BLOCKS)}"), env=environment(LANG="C.UTF-8"))


# The colours of the base heap with M = 2 in four cells: yellow fillers, green and cyan.
BEFORE = (33, 32, 32, 32)
AFTER = (33, 32, 32, 36)


# Whether there are colours, where standard output is no terminal.
WHENS = (
    ("--color=always", True), ("--color=never", False), ("--color=auto", False),
    ("--color=never --color=always", True), ("--color=always --color=never", False), ("--color=always --color=auto", False),
    ("--color --color=auto", True), ("--color=auto --color --color=auto", True), ("--color --color=never", False),
    ("--color=always --no-color", False), ("--no-color --color=auto", False), ("--color=always --verbose=never", True),
    ("--verbose=auto --color", True), ("--verbose=auto", False),
)


def coloured(marks: str, colours: tuple[int, ...]) -> str:
    return "".join(f"\x1b[{colour}m{mark}\x1b[0m" for colour, mark in zip(colours, marks))


def try_terminal(tried: Tried) -> None:
    """On a terminal there are colours, but not with --no-color, and not by NO_COLOR or TERM=dumb without --color."""
    tried.write("image", image(WORDS, LIVE, 2))
    for flag, names, has_colours in (
            ("", {}, True), ("--no-color", {}, False), ("", {"NO_COLOR": "1"}, False), ("", {"NO_COLOR": ""}, True),
            ("", {"TERM": "dumb"}, False), ("--color", {"NO_COLOR": "1", "TERM": "dumb"}, True),
            ("--color=auto", {}, True), ("--color=never --color=auto", {}, True), ("--color=auto", {"NO_COLOR": "1"}, False),
            ("--color=always", {"NO_COLOR": "1", "TERM": "dumb"}, True), ("--color=never", {}, False),
            ("--no-color --color=auto", {}, False)):
        ours, theirs = pty.openpty()
        words = [tried.program, "map", "image", "--width", "4", "--height", "1", "--letters", *flag.split()]
        tried.count += 1
        kept = {name: value for name, value in os.environ.items() if name != "NO_COLOR"}
        subprocess.run(words, cwd=tried.folder, stdout=theirs, check=False, env={**kept, "TERM": "xterm", **names})
        os.close(theirs)
        shown = os.read(ours, 4096)
        os.close(ours)
        if (b"\x1b[33m+\x1b[0m" in shown) != has_colours or b"prefix 8" not in shown:
            tried.is_wrong(f"map on a terminal {flag} {names}: {shown!r}")
    for names, rows in (({"COLUMNS": "36", "LINES": "10"}, 2), ({"COLUMNS": "36", "LINES": "7"}, 1)):
        ours, theirs = pty.openpty()
        tried.count += 1
        subprocess.run([tried.program, "map", "image", "--letters", "--no-color"], cwd=tried.folder, stdout=theirs, check=False, env={**os.environ, **names})
        os.close(theirs)
        shown = os.read(ours, 4096).decode().replace("\r", "")
        os.close(ours)
        if rows == 2 and shown != IN_ROWS or shown.count("|\n") + shown.count(" MiB\n") < rows:
            tried.is_wrong(f"map on a terminal of {names}: {shown!r}")


# By the columns and lines of a terminal, 0 where it doesn't say: the cells of a row, the rows of a strip, and those with `--after`.
TERMINALS = (
    (120, 40, 100, 17, 8), (37, 25, 17, 10, 5), (36, 24, 16, 9, 4), (35, 9, 16, 2, 1), (21, 8, 16, 1, 1), (20, 7, 16, 1, 1),
    (3, 6, 16, 1, 1), (1, 1, 16, 1, 1), (0, 0, 60, 8, 8),
)


def try_sizes(tried: Tried) -> None:
    """A row has as many cells as fit between its name and its address, and sixteen at least. A strip has as many rows as fit
    with the figures, the legend and a prompt, and one at least."""
    heap, _ = generated(Wanted(8192, 5, 50, 25, 2, 300, 6))
    collection = model.Collection(heap)
    tried.write("heap", model.encode(heap))
    for columns, lines, cells, *rows in TERMINALS:
        for option, height in zip(("", " --after"), rows):
            words = f"map heap --letters --no-color{option}"
            status, shown = on_terminal(tried, words, "stdout", env={**os.environ, "COLUMNS": str(columns), "LINES": str(lines)})
            is_fit = height == 1 or lines == 0 or shown.count("\n") < lines
            if (status, shown) != (0, collection.map(cells, bool(option), height)) or not is_fit:
                tried.is_wrong(f"{words}, on a terminal of {columns} columns and {lines} lines: {shown}")


def drawing(tried: Tried, name: str) -> xml.etree.ElementTree.Element:
    """The drawing in a file, which must be valid XML and not too long."""
    text = tried.read(name)
    if len(text) >= MAX_BYTES:
        tried.is_wrong(f"a drawing has {len(text)} bytes")
    return xml.etree.ElementTree.fromstring(text)


def cells_of(root: xml.etree.ElementTree.Element) -> list[tuple[str, str]]:
    """The pattern and the title of each cell."""
    rects = [rect for rect in root.iter(f"{SVG}rect") if rect.find(f"{SVG}title") is not None]
    return [(re.fullmatch(r"url\(#(\w+)\)", rect.get("fill"))[1], rect.find(f"{SVG}title").text) for rect in rects]


def try_drawings(tried: Tried) -> None:
    """What a drawing shows: each cell with its pattern and its title, all areas, and a legend."""
    tried.write("image", image(WORDS, LIVE, 2))
    tried.run("map image --after --svg drawn --width 4 --height 1", Answer(0, WHOLE.splitlines(True)[0]))
    root = drawing(tried, "drawn")
    wanted = [("f3", "words 0 to 7: 6 live, prefix with fillers"), ("m2", "words 8 to 15: 3 live, moving"),
              ("m2", "words 16 to 23: 4 live, moving"), ("m3", "words 24 to 31: 6 live, moving"),
              ("f3", "words 0 to 7: 6 live, prefix with fillers"), ("m4", "words 8 to 15: 8 live, moving"),
              ("m2", "words 16 to 23: 5 live, moving"), ("e0", "words 24 to 31: 0 live, free")]
    if cells_of(root) != wanted:
        tried.is_wrong(f"a drawing has other cells: {cells_of(root)}")
    try_drawing_of_words(tried)
    patterns = {pattern.get("id"): pattern for pattern in root.iter(f"{SVG}pattern")}
    looks = {(rect.get("fill-opacity"), path.get("d"))
             for pattern in patterns.values() for rect, path in [list(pattern)]}
    if len(patterns) != 20 or len(looks) != 20:
        tried.is_wrong("without colours two patterns look alike")
    texts = [text.text for text in root.iter(f"{SVG}text")]
    for name in ("prefix with fillers", "moving", "free", "none lives", "few", "half", "most", "all live", "image",
                 "end of the dense prefix", "top after the collection", "0.0 KiB", "32 words, 0.0 MiB: 19 live, 59.4 per cent; 13 dead",
                 "dense prefix ends at 8, new top is 21; 3 regions to fill"):
        if name not in texts:
            tried.is_wrong(f"a drawing has no text {name}")
    if "prefix" in texts:
        tried.is_wrong("the legend of a drawing has an area that no cell has")
    if marks_of(root) != ["prefix end: word 8", "new top: word 21"] * 2:
        tried.is_wrong(f"a drawing has other marks: {marks_of(root)}")
    try_full_heap(tried)
    try_no_prefix(tried)


def marks_of(root: xml.etree.ElementTree.Element) -> list[str]:
    """The titles of the marks."""
    return [path.find(f"{SVG}title").text for path in root.iter(f"{SVG}path") if path.find(f"{SVG}title") is not None]


def try_full_heap(tried: Tried) -> None:
    """A heap without a dead word: its top is where it ends, and still has a mark."""
    full = image([model.header(32, 0)] + [0] * 31, [0], 0)
    collection = model.Collection(model.decode(full))
    tried.write("full", full)
    tried.run("map full --svg drawn --width 4 --height 2", Answer(0, collection.map_line()))
    marks = marks_of(drawing(tried, "drawn"))
    if marks != [f"prefix end: word {collection.prefix_end}"] * (collection.prefix_end > 0) + ["new top: word 32"]:
        tried.is_wrong(f"the drawing of a full heap has other marks: {marks}")
    tried.run("map full --after --letters --width 4 --height 2", Answer(0, collection.map(4, True, 2)))


def texts_of(root: xml.etree.ElementTree.Element) -> list[str]:
    """The texts of a drawing, with those of its legend."""
    return [text.text for text in root.iter(f"{SVG}text")]


def try_no_prefix(tried: Tried) -> None:
    """A dense prefix that ends at 0 has neither a mark nor a line of the legend."""
    tried.write("image", image(WORDS, LIVE, 0))
    tried.run("map image --svg drawn --width 4 --height 1", Answer(0, None))
    root = drawing(tried, "drawn")
    texts = texts_of(root)
    if marks_of(root) != ["new top: word 19"] or "end of the dense prefix" in texts or "top after the collection" not in texts:
        tried.is_wrong(f"the drawing of a heap without a dense prefix has other marks: {marks_of(root)}, or another legend")
    if "no dense prefix, new top is 19; 3 regions to fill" not in texts:
        tried.is_wrong("a drawing says otherwise that there is no dense prefix")


# The words of a heap and the words of a region, and the labels of its rows: KiB below 10 MiB, then MiB.
LABELS = (
    (32, 3, ["0.0 KiB", "0.1 KiB", "0.1 KiB", "0.2 KiB"]),
    (57344, 9, ["0.0 KiB", "112.0 KiB", "224.0 KiB", "336.0 KiB"]),
    (2097152, 16, ["0.0 KiB", "4096.0 KiB", "8192.0 KiB", "12.0 MiB"]),
)


def try_labels(tried: Tried) -> None:
    """The addresses of rows: their units, and that they stand beside the rows and inside the drawing, as wide as they are."""
    for words, region_log, labels in LABELS:
        tried.run(f"generate heap --words {words} --live 50 --region-log {region_log} --seed 5", Answer(0, None))
        tried.run("map heap --svg drawn --width 8 --height 4", Answer(0, None))
        root = drawing(tried, "drawn")
        found = [text.text for text in root.iter(f"{SVG}text") if re.fullmatch(r"[\d.]+ [KM]iB", text.text)]
        if found != labels:
            tried.is_wrong(f"the rows of {words} words have the labels {found}")
        try_margins(tried, root)
    # Addresses of eight digits.
    tried.run("generate heap --version 3 --words 10485760 --live 5 --region-log 16 --seed 5", Answer(0, None))
    tried.run("map heap --svg drawn --width 8", Answer(0, None))
    try_margins(tried, drawing(tried, "drawn"))


def try_margins(tried: Tried, root: xml.etree.ElementTree.Element) -> None:
    """Nine points a digit, as wide as common fonts have them, are beside the rows."""
    wide = int(root.get("viewBox").split()[2])
    row = next(group for group in root.iter(f"{SVG}g") if group.find(f"{SVG}rect/{SVG}title") is not None)
    left = int(re.match(r"translate\((\d+),", row.get("transform"))[1])
    end = left + sum(float(rect.get("width")) for rect in row.iter(f"{SVG}rect"))
    tried.count += 1
    for text in root.iter(f"{SVG}text"):
        at, name = int(text.get("x")), text.text
        if text.get("text-anchor") == "end" and not (0 < at - 9 * len(name) and at < left):
            tried.is_wrong(f"a drawing has no room for the address {name} left of its rows, which begin at {left}")
        if re.fullmatch(r"[\d.]+ [KM]iB", name) and not (end < at and at + 9 * len(name.split(".")[0]) + 42 < wide):
            tried.is_wrong(f"a drawing has no room for {name} right of its rows, which end at {end}")


def try_rounding(tried: Tried) -> None:
    """The figures of a drawing are rounded as those of `--stats`: 0.46 MiB are 0.5."""
    tried.run("generate heap --words 60000 --live 37 --region-log 3 --seed 5", Answer(0, None))
    tried.run("map heap --svg drawn", Answer(0, None))
    heap = model.decode(tried.read("heap"))
    live = len(model.Collection(heap).owner)
    tenths = (live * 2000 + 60000) // 120000
    shown = f"60000 words, 0.5 MiB: {live} live, {tenths // 10}.{tenths % 10} per cent; {60000 - live} dead"
    stats = subprocess.run([tried.program, "collect", "heap", "out", "--workers", "1", "--stats"], cwd=tried.folder, capture_output=True, text=True, check=False).stderr
    tried.count += 1
    if shown not in texts_of(drawing(tried, "drawn")) or "pcompact: heap 0.5 MiB, " not in stats:
        tried.is_wrong(f"the figures of a drawing aren't {shown}, or not those of {stats}")


def try_contrast(tried: Tried) -> None:
    """The colours of a drawing, light and dark, also as people with each kind of colour blindness see them: text, marks, the
    covers of each area, each beside the next, and the hatching on them."""
    tried.write("image", image(WORDS, LIVE, 2))
    tried.run("map image --svg drawn", Answer(0, None))
    css = tried.read("drawn").decode().split("<style>")[1].split("</style>")[0]
    looks = sorted({(float(rect.get("fill-opacity")), line.get("class"))
                    for rect, line in map(list, drawing(tried, "drawn").iter(f"{SVG}pattern"))})
    if len(looks) != 5 or looks[-1][0] != 1:
        tried.is_wrong(f"a drawing has other covers: {looks}")
    hatching = float(re.search(r"stroke-opacity: ([.\d]+)", css)[1])
    for scheme, colours in zip(("light", "dark"), schemes(css, r"(?m)^\.?(\w+)(?:, \.\w+)? \{ (?:fill|stroke): (#\w+)")):
        page = colours["page"]
        pairs = [(colours["text"], page, 4.5), (colours["mark"], page, 4.5)]
        for area in ("p", "f", "m", "e", "shade"):
            shown = [over(colours[area], page, cover) for cover, _ in looks]
            pairs += [(shown[-1], page, 4.5), *((one, other, 1.3) for one, other in zip(shown, shown[1:]))]
            pairs += [(over(colours[line], under, hatching), under, 2) for under, (_, line) in zip(shown, looks)]
        for one, other, least in pairs:
            tried.count += 1
            if worst(one, other) < least:
                tried.is_wrong(f"{one} on {other} has a contrast of {worst(one, other):.2f}, {scheme}")


def try_names(tried: Tried) -> None:
    """The name of the heap's file in a drawing, which must stay XML."""
    for name in ("a<b>&'c'.pcheap", 'say "heap".pcheap', "ä\u3042.pcheap", "]]>"):
        tried.write(name, image(WORDS, LIVE, 2))
        tried.run(["map", f"./{name}", "--svg", "drawn"], Answer(0, WHOLE.splitlines(True)[0]))
        if name not in [text.text for text in drawing(tried, "drawn").iter(f"{SVG}text")]:
            tried.is_wrong(f"a drawing hasn't the name {name!r}")
    (tried.folder / "heaps" / "small").mkdir(parents=True)
    for name, shown in (("a\tb", "a?b"), ("line\nfeed\x7f", "line?feed?"), ("\ufffe\uffff\ufffd", "??\ufffd"),
                        ("heaps/small/base.pcheap", "base.pcheap"), ('a<b>&"c"', 'a<b>&"c"')):
        tried.write(name, image(WORDS, LIVE, 2))
        tried.run(["map", name, "--svg", "drawn"], Answer(0, WHOLE.splitlines(True)[0]))
        if shown not in [text.text for text in drawing(tried, "drawn").iter(f"{SVG}text")]:
            tried.is_wrong(f"a drawing shows the name {name!r} otherwise")


def try_drawing_of_words(tried: Tried) -> None:
    """The base heap with M = 2 in a cell for each word: one title of the drawing, and one of each cell."""
    tried.run("map image --after --svg drawn --width 32", Answer(0, WHOLE.splitlines(True)[0]))
    text = tried.read("drawn")
    titles = [title for _, title in cells_of(drawing(tried, "drawn"))]
    if len(titles) != 64 or text.count(b"<title>") != 69 or "words 3 to 3: 0 live, prefix with fillers" not in titles:
        tried.is_wrong(f"a drawing has other titles: {titles}")
    if not text.startswith(b"<?xml") or not text.endswith(b"</svg>\n"):
        tried.is_wrong("a drawing begins or ends otherwise")


def try_large_drawings(tried: Tried) -> None:
    """Drawings of large heaps, in as many cells as there can be, beside the model."""
    for wanted in (Wanted(65536, 9, 40, 25, 2, 9000, 3), Wanted(65536, 3, 99, 25, 1, 700, 4)):
        heap, _ = generated(wanted)
        collection = model.Collection(heap)
        tried.write("heap", model.encode(heap))
        tried.run("map heap --after --svg drawn --width 1000", Answer(0, collection.map_line()))
        shown = cells_of(drawing(tried, "drawn"))
        last_end = heap.end(collection.live[-1])
        right = [*collection.cells(1000, set(collection.owner), last_end),
                 *collection.cells(1000, set(collection.origins), collection.top)]
        names = ['e' if area == '-' else area for _, area in right]
        if [pattern for pattern, _ in shown] != [f"{name}{'_.:+#'.index(shade)}" for name, (shade, _) in zip(names, right)]:
            tried.is_wrong(f"a drawing of {wanted} has other cells")
        tried.run("map heap --after --letters --width 1000", Answer(0, collection.map(1000, True)))
        tried.run("map heap --after --letters --width 53 --height 7", Answer(0, collection.map(53, True, 7)))
    largest = "generate most --words 4194304 --live 60 --region-log 16 --seed 2 --allowance 800000"
    tried.run(largest, Answer(0, None))
    for shape, cells in (("--width 1000 --height 100", 2000), ("--width 10 --height 100", 1900), ("--height 100", 2048), ("", 1024)):
        tried.run(f"map most --after --svg drawn {shape}", Answer(0, None))
        if len(cells_of(drawing(tried, "drawn"))) != cells:
            tried.is_wrong(f"a drawing of the largest heap hasn't {cells} cells with {shape!r}")


def try_most_regions(tried: Tried) -> None:
    """A heap of as many regions as there can be, by each command that looks at it: none is too many."""
    tried.run("generate most --words 131072 --live 99 --region-log 3 --seed 4", Answer(0, None))
    for words in ("map most --letters", "order most"):
        tried.run(words, Answer(0, None))
    tried.count += 2
    summary, order = (subprocess.run([tried.program, word, "most"], cwd=tried.folder, capture_output=True, text=True, check=False).stdout
                      for word in ("summary", "order"))
    if summary.count("\n") != 16_385:
        tried.is_wrong(f"of 16,384 regions {summary.count(chr(10))} lines sum up")
    if not re.fullmatch(r"chain [1-9]\d* words [1-9]\d* speedup \d+\.\d\d workers [1-9]\d*\n", order):
        tried.is_wrong(f"the order of 16,384 regions is {order!r}")


def try_files(tried: Tried) -> None:
    """Files that can't be read or written, one that is the image, and one that is longer than the drawing."""
    line = Answer(0, "words 32 live 19 dead 13 prefix 0 top 19 filled 3\n")
    (tried.folder / "map_folder").mkdir()
    tried.write("kept", OLD)
    for words in ("map nothing", "map map_folder", "map nothing --svg kept", "map base --svg map_folder",
                  "map base --svg nothing/out", "map base --svg /dev/full"):
        tried.run(words, fault(FAULT_13))
    tried.run("map nothing --svg drawn", dataclasses.replace(fault(FAULT_13), made={"drawn": None}))
    same = Answer(2, err="pcompact: same file\n")
    for flag in ("", " --atomic"):
        for name in ("base", "./base"):
            tried.run(f"map base --svg {name}{flag}", same)
    tried.run("map base --svg /dev/full --atomic", Answer(2, err="pcompact: not a regular file\n"))
    tried.write("image", BASE[:319])
    for flag in ("", " --atomic"):
        tried.run(f"map image --svg kept{flag}", fault("5 truncated body"))
        tried.run(f"map image --svg drawn{flag}", fault("5 truncated body", {"drawn": None}))
    if tried.read("kept") != OLD or tried.read("base") != BASE:
        tried.is_wrong("a file is changed that no drawing came into")
    tried.run("map base --svg drawn", line)
    for flag in ("", " --atomic"):
        tried.write("kept", OLD)
        tried.run(f"map base --svg kept{flag}", line)
        if tried.read("kept") != tried.read("drawn"):
            tried.is_wrong("a file is not emptied before a drawing is written")
    with FULL.open("wb") as full:
        tried.run("map base", fault(FAULT_13), stdout=full)
        tried.run("map base --svg drawn --atomic", fault(FAULT_13, {"drawn": None}), stdout=full)
    tried.run("map /dev/stdin --letters --width 4", Answer(
        0, f"{line.out}before |+::+|\n       |mmmm|\n{legend('m')}"), input=BASE)
    tried.run("map nothing --svg kept --verbose", Answer(1, err=(
        "pcompact: fault 13 input or output\npcompact: file IMAGE nothing\npcompact: call open\n"
        "pcompact: reason no such file or folder\n")))
    tried.run("map base --svg nothing/out --verbose", Answer(1, err=(
        "pcompact: fault 13 input or output\npcompact: file FILE nothing/out\npcompact: call open\n"
        "pcompact: reason no such file or folder\n")))


GROUPS = (try_rows, try_moves, try_words, try_looks, try_terminal, try_sizes, try_drawings, try_labels, try_rounding, try_contrast, try_names, try_large_drawings, try_most_regions, try_files)

if __name__ == "__main__":
    sys.exit(try_groups(GROUPS))
