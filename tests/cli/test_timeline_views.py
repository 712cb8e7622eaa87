#!/usr/bin/env python3
"""Tries `pcompact timeline`: what it prints and draws of schedules, beside a plain model, and its pages in a headless
browser: what they show of given lines, not only that they open.

usage: tests/cli/test_timeline_views.py [PROGRAM] [--write]      (--write puts what is drawn into tests/rows/timeline.svg)

Without a browser the script of the pages is run by Node.js over a document that is none, and without that not at all; the
last line but one says which.
"""
import argparse
import collections
import dataclasses
import html.parser
import pathlib
import random
import re
import sys
import tempfile
import time
import xml.etree.ElementTree

# Finds the package `tests` from any folder, and writes nothing beside its modules.
sys.dont_write_bytecode = True
sys.path.insert(0, str(pathlib.Path(__file__).resolve().parents[2]))
from tests.cli.test_map import environment
from tests.cli.test_timeline import BLOCK_HANDS, MARKS
from tests.models import image as model
from tests.models.generated_heap import Wanted, generated
from tests.models.schedule import Line, Machine, Schedule, fill, read
from tests.models.timeline import LEGEND, LETTERS, Timeline, stages_at
from tests.support.browser import layout, part, run_page, runner
from tests.support.cases import LIVE, WORDS, image
from tests.support.contrast import schemes, worst
from tests.support.program import TOP, Answer, Tried, built

SVG = "{http://www.w3.org/2000/svg}"
MAX_BYTES = 300_000
SHOWN_BARS, SHOWN_FREEINGS = 200, 300
# Half of these are filled, and all but one freed: about as many as a drawing shows, and more.
SPREAD_REGIONS = (201, 301, 302, 400, 402, 500)
# Of the schedule below, with a bar of each region and each kind of line from a drain to who takes the region.
DRAWN = TOP / "tests" / "rows" / "timeline.svg"

# Two workers on the base heap with M = 0, with each event and each kind of reply.
BASE = """\
schedule 1 2
0 claim 0 yes
1 claim 0 no
1 claim 1 no
1 claim 3 no
1 look 1 open1
1 look 3 out2
1 poll more
0 copy 0 5 ok
0 copy 0 3 ok
0 drain 0 1 last
1 look 0 claimed
1 claim 1 yes
0 complete 0 ok
1 look 0 filled
1 copy 1 5 ok
0 settle 0 more
1 drain 1 2 last
1 copy 1 3 ok
1 drain 1 3 notlast
0 claim 2 yes
0 copy 2 3 ok
1 complete 1 ok
0 drain 2 3 last
1 settle 1 more
0 complete 2 ok
0 settle 2 all
"""
TEXT = """\
workers 2 lines 26 granted 3 completed 3 settled 3 freed 3 taken 2 finished
worker  0 |################___#######|
          |c        f     s   t  f  s|
worker  1 |___________#############__|
          |           t    f      s  |
          lines 2 to 27 of the schedule, not time
""" + LEGEND + """\
line 11: worker 0 drains 1 into 0 and frees 1, worker 1 takes it in line 13
line 18: worker 1 drains 2 into 1 and frees 2, worker 0 takes it in line 21
line 24: worker 0 drains 3 into 2 and frees 3, nobody takes it
"""
# The second of two workers has region 1 in hand in the end.
OPEN = """\
schedule 1 2
0 claim 0 yes
0 copy 0 8 ok
1 claim 1 no
0 drain 0 1 last
1 claim 1 ?
0 complete 0 ok
0 settle 0 more
1 poll ?
"""
OPEN_TEXT = """\
workers 2 lines 8 granted 2 completed 1 settled 1 freed 1 taken 1 open
worker  0 |#######_|
          |c  f  s |
worker  1 |____####|
          |    t   |
          lines 2 to 9 of the schedule, not time
""" + LEGEND + """\
line 5: worker 0 drains 1 into 0 and frees 1, worker 1 takes it in line 6
"""
OPEN_TITLES = [
    "region 0: worker 0, claimed in line 2, completed in line 7, settled in line 8",
    "region 1: worker 1, claimed in line 6, not settled",
    "line 5: worker 0 drains 1 into 0 and frees 1, worker 1 takes it in line 6",
]
# The least contrast that two colours have for every eye: those of text 4.5, and edges and neighbours less.
PAGE_COLOURS = [
    ("text", "page", 4.5), ("quiet", "page", 4.5), ("text", "start", 4.5), ("text", "outside", 4.5), ("on-filled", "filled", 4.5),
    ("on-settled", "settled", 4.5), ("on-bar", "even", 4.5), ("on-bar", "odd", 4.5), ("mark", "page", 4.5), ("frame", "lane", 3),
    ("edge", "page", 3), ("claimed", "start", 3), ("filled", "settled", 2.8), ("start", "filled", 2.2), ("start", "settled", 4.5),
    ("outside", "filled", 1.6), ("stripe", "start", 1.7), ("even", "odd", 1.5), ("lane", "even", 1.2), ("lane", "odd", 1.25),
    ("lane", "share1", 1.25), ("share1", "share2", 1.4), ("share2", "share3", 1.6), ("share3", "share4", 1.6),
]
DRAWING_COLOURS = [
    ("text", "page", 4.5), ("text", "e", 4.5), ("text", "o", 4.5), ("e", "o", 1.5), ("lane", "e", 1.2), ("lane", "o", 1.25),
    ("lane", "s1", 1.25), ("s1", "s2", 1.4), ("s2", "s3", 1.6), ("s3", "s4", 1.6),
]
COPIED = "Allowed: it claimed the region, and at least so many words were unwritten."
# Of some lines of the first one what a page says.
WORDS_OF = {
    1: ["Nothing has happened yet.", "The heap has 4 regions, of which 3 are to be filled."],
    2: ["Worker 0 claims region 0: granted.", "Yes: it is to be filled, nobody had claimed it, and nobody has still to read it."],
    3: ["Worker 1 claims region 0: not granted.", "No: worker 0 has claimed it before."],
    4: ["Worker 1 claims region 1: not granted.", "No: region 0 has still to read it."],
    5: ["Worker 1 claims region 3: not granted.", "No: it isn't to be filled, and regions 1 and 2 have still to read it."],
    6: ["Worker 1 looks at region 1: it is to be filled and unclaimed, and one region has still to read it.", "A look is always allowed, and changes nothing."],
    7: ["Worker 1 looks at region 3: it isn't to be filled, and 2 regions have still to read it.", "A look is always allowed, and changes nothing."],
    8: ["Worker 1 asks whether all is settled: no, 3 regions are not.", "A poll is always allowed."],
    9: ["Worker 0 copies 5 words of region 0 from region 0 itself; written now: 5.", COPIED],
    10: ["Worker 0 copies 3 words of region 0 from regions 0 and 1; written now: 8.", COPIED],
    11: ["Worker 0 has copied all that region 0 takes from region 1. It was the last: region 1 is free. Worker 1 claims it in line 13.",
         "Allowed: worker 0 claimed region 0, had not completed it, and this pair was pending."],
    14: ["Worker 0 completes region 0.", "Allowed: it claimed the region, has written all its words, and has drained all that it takes from others."],
    17: ["Worker 0 settles region 0: 2 are still to be settled.", "Allowed: it claimed the region and has completed it."],
    19: ["Worker 1 copies 3 words of region 1 from region 3; written now: 8.", COPIED],
    20: ["Worker 1 has copied all that region 1 takes from region 3. Region 2 has still to read it.",
         "Allowed: worker 1 claimed region 1, had not completed it, and this pair was pending."],
    24: ["Worker 0 has copied all that region 2 takes from region 3. It was the last: region 3 is free. It isn't to be filled, so nobody claims it.",
         "Allowed: worker 0 claimed region 2, had not completed it, and this pair was pending."],
    27: ["Worker 0 settles region 2: all regions to be filled are settled.", "Allowed: it claimed the region and has completed it."],
}
# And what it says that each worker does.
DOES_IN = {
    1: ["has no region in hand", "has no region in hand"], 2: ["has claimed region 0", "has no region in hand"],
    9: ["fills region 0", "has no region in hand"], 14: ["has filled region 0", "has claimed region 1"],
    16: ["has filled region 0", "fills region 1"], 27: ["has no region in hand", "has no region in hand"],
}
FILLS = ["2 regions, 11 words", "1 region, 8 words"]


def interleaved(collection: model.Collection, workers: int, chance: random.Random) -> Schedule:
    """A schedule of workers that take turns at random."""
    machine = Machine(collection)
    ready = collections.deque(r for r in sorted(machine.to_fill) if not machine.pending_on(r))
    doing = [[] for _ in range(workers)]
    lines = []
    while ready or any(doing):
        worker = chance.randrange(workers)
        if not doing[worker] and ready:
            doing[worker] = fill(machine, worker, ready.popleft())
        if doing[worker]:
            line = doing[worker].pop(0)
            lines.append(line.replied(machine.step(line)))
            if lines[-1].reply == "last" and line.numbers[1] in machine.to_fill:
                ready.append(line.numbers[1])
    return Schedule(workers, lines)


def open_ended(schedule: Schedule, chance: random.Random) -> Schedule:
    """The beginning of a schedule."""
    return Schedule(schedule.workers, schedule.lines[:chance.randrange(len(schedule.lines))])


def try_base(tried: Tried) -> None:
    """Each kind of line, as text."""
    tried.write("base", image(WORDS, LIVE, 0))
    tried.write("schedule", BASE)
    tried.run("timeline base schedule --letters", Answer(0, TEXT))
    tried.write("schedule", re.sub("(?m) [a-z0-9]+$", " ?", BASE).replace("schedule 1 ?", "schedule 1 2"))
    tried.run("timeline base schedule --letters", Answer(0, TEXT))
    try_kept_drawing(tried)
    tried.write("schedule", "schedule 1 3\n")
    empty = "".join(f"worker  {worker} ||\n          ||\n" for worker in range(3))
    tried.run("timeline base schedule --letters", Answer(
        0, "workers 3 lines 0 granted 0 completed 0 settled 0 freed 0 taken 0 open\n" + empty + "          lines 2 to 1 of the schedule, not time\n" + LEGEND))


def try_kept_drawing(tried: Tried) -> None:
    """The drawing of the same schedule, byte for byte as it is kept, also in a page."""
    tried.write("schedule", BASE)
    figures = TEXT.splitlines(True)[0]
    tried.run("timeline base schedule --svg drawn", Answer(0, figures, made={"drawn": DRAWN.read_bytes()}))
    tried.run("timeline base schedule --html page", Answer(0, figures))
    bars = re.findall(r"(?m)^<g>.*</g>$", DRAWN.read_text())
    if len(bars) != 3 or DRAWN.read_bytes() == tried.read("page"):
        tried.is_wrong("the kept drawing has other bars, or a page is the drawing")


def try_contrast(tried: Tried) -> None:
    """The colours of a page and of a drawing, light and dark, also as people with each kind of colour blindness see them."""
    tried.write("base", image(WORDS, LIVE, 0))
    tried.write("schedule", BASE)
    for option, pattern, pairs in (("html", r"--([\w-]+): (#\w+)", PAGE_COLOURS), ("svg", r"(?m)^\.?(\w+) \{ fill: (#\w+)", DRAWING_COLOURS)):
        tried.run(f"timeline base schedule --{option} drawn", Answer(0, TEXT.splitlines(True)[0]))
        css = tried.read("drawn").decode().split("<style>")[1].split("</style>")[0]
        for scheme, colours in zip(("light", "dark"), schemes(css, pattern)):
            for one, other, least in pairs:
                tried.count += 1
                if worst(colours[one], colours[other]) < least:
                    tried.is_wrong(f"{one} on {other} has a contrast of {worst(colours[one], colours[other]):.2f} in {option}, {scheme}")


def try_layout(tried: Tried) -> None:
    """A page and a drawing on narrow and wide screens, light and dark: nothing stands beyond the screen, and a dark screen gets
    other colours."""
    if runner() in (None, "node"):
        return
    tried.write("base", image(WORDS, LIVE, 0))
    tried.write("schedule", BASE)
    tried.run("timeline base schedule --html page", Answer(0, None))
    tried.run("map base --after --svg map", Answer(0, None))
    pages = {"page": tried.read("page").decode(), "map": f"<html><body>{tried.read('map').decode().split('?>')[1]}</body></html>"}
    for name, page in pages.items():
        for width in (375, 1400):
            light, dark = (layout(page, width, is_dark, tried.folder) for is_dark in (False, True))
            tried.count += 1
            fit = all(0 < it.get("wide", 0) <= it.get("room", 0) == width for it in (light, dark))
            if not fit or (name == "page" and light["page"] == dark["page"]):
                tried.is_wrong(f"{name}, {width} points wide: {light}, dark: {dark}")


def write_drawing(tried: Tried) -> None:
    """Keeps what is drawn now."""
    tried.write("base", image(WORDS, LIVE, 0))
    tried.write("schedule", BASE)
    tried.run("timeline base schedule --svg drawn", Answer(0, None))
    DRAWN.write_bytes(tried.read("drawn"))


def try_open(tried: Tried) -> None:
    """A schedule that ends early, as text, as a drawing and as a page."""
    tried.write("base", image(WORDS, LIVE, 0))
    tried.write("schedule", OPEN)
    tried.run("timeline base schedule --letters --width 1000", Answer(0, OPEN_TEXT))
    figures, *_, freed = OPEN_TEXT.splitlines(True)
    tried.run("timeline base schedule --width 1 --color", Answer(0, (
        f"{figures}worker  0 |\x1b[32m▓\x1b[0m|\n          |\x1b[35mx\x1b[0m|\n"
        f"worker  1 |\x1b[32m▒\x1b[0m|\n          |\x1b[36mt\x1b[0m|\n          lines 2 to 9 of the schedule, not time\n{BLOCK_HANDS}{MARKS}{freed}")),
              env=environment(LANG="C.UTF-8"))
    tried.run("timeline base schedule --svg drawn", Answer(0, figures))
    drawn = tried.read("drawn").decode()
    if not all(f"<title>{title}</title>" in drawn for title in OPEN_TITLES) or not drawn.endswith("</svg>\n"):
        tried.is_wrong("the drawing of a schedule that ends early has other titles, or another end")
    tried.run("timeline base schedule --html page", Answer(0, figures))
    page = tried.read("page").decode()
    for text in ('id="moves">\nregions 4 filled 3 prefix 0\n0 0 6\n0 1 8\n1 1 1\n1 2 5\n1 3 8\n2 3 3\n</script>', "\nschedule 1 2\n0 claim 0 yes\n",
                 "\n1 claim 1 yes\n"):
        if text not in page:
            tried.is_wrong(f"the page of a schedule that ends early lacks {text!r}")
    if not page.endswith("</html>\n"):
        tried.is_wrong("the page of a schedule that ends early ends otherwise")


def try_seeded(tried: Tried) -> None:
    """Texts and drawings of schedules of many heaps, beside the model."""
    chance = random.Random(7)
    many = 0
    for number in range(30):
        live, allowance = chance.choice([5, 40, 60, 90]), chance.choice([0, 30, 900])
        heap, _ = generated(Wanted(1 << chance.randrange(6, 12), chance.randrange(3, 6), live, 25, 2, allowance, number))
        collection = model.Collection(heap)
        schedule = interleaved(collection, chance.choice([1, 2, 3, 7, 64]), chance)
        end = "finished"
        if number % 3 == 0 and schedule.lines:
            schedule = open_ended(schedule, chance)
            settled = sum(line.event == "settle" for line in schedule.lines)
            end = "finished" if settled == len(collection.to_fill) else "open"
        timeline = Timeline(schedule, end)
        tried.write("heap", model.encode(heap))
        tried.write("schedule", schedule.text())
        for width in (1, 64, chance.randint(1, 1000)):
            tried.run(f"timeline heap schedule --letters --width {width}", Answer(0, timeline.text(width)))
        # As wide as if 64 were asked for.
        tried.run("timeline heap schedule --letters", Answer(0, timeline.text(64)))
        many += len(schedule.lines) > 64
        try_drawing(tried, timeline)
    tried.count += 1
    if many < 10:
        tried.is_wrong(f"only {many} schedules have more than 64 lines")


def spread(regions: int) -> model.Image:
    """A heap of regions of eight words, of each of which the first four are an object."""
    return model.Image(1, 3, 0, [model.header(4, 0), 1, 2, 3, *[0] * 4] * regions, list(range(0, 8 * regions, 8)))


def try_many(tried: Tried) -> None:
    """Schedules of about as many regions and freed regions as a drawing shows each of, and of more."""
    chance = random.Random(11)
    seen = set()
    for regions in SPREAD_REGIONS:
        heap = spread(regions)
        for workers in (2, 64):
            schedule = interleaved(model.Collection(heap), workers, chance)
            timeline = Timeline(schedule, "finished")
            tried.count += 1
            if (len(timeline.bars), len(timeline.freeings)) != (-(-regions // 2), regions - 1):
                tried.is_wrong(f"of {regions} regions {len(timeline.bars)} are filled, and {len(timeline.freeings)} freed")
            tried.write("heap", model.encode(heap))
            tried.write("schedule", schedule.text())
            try_drawing(tried, timeline)
            seen |= {look for look, _ in shares_drawn(tried)}
    tried.count += 1
    if seen != {"s1", "s2", "s3", "s4"}:
        tried.is_wrong(f"the drawings show only the shares {seen}")


def shares_drawn(tried: Tried) -> list[tuple[str, str]]:
    """The look and the title of each share that is drawn."""
    root = xml.etree.ElementTree.fromstring(tried.read("drawn"))
    rects = [rect for rect in root.iter(f"{SVG}rect") if rect.find(f"{SVG}title") is not None]
    return [(rect.get("class"), rect.find(f"{SVG}title").text) for rect in rects]


def try_drawing(tried: Tried, timeline: Timeline) -> None:
    """A drawing has a title for each bar and each freed region that is shown, or for each cell in which a worker has a region
    in hand, coloured by its share of the lines."""
    tried.run("timeline heap schedule --svg drawn", Answer(0, timeline.figures()))
    text = tried.read("drawn")
    if len(text) >= MAX_BYTES:
        tried.is_wrong(f"a drawing has {len(text)} bytes")
    root = xml.etree.ElementTree.fromstring(text)
    titles = [title.text for title in root.iter(f"{SVG}title")][1:]
    bars = sorted(title for title in titles if title.startswith("region "))
    freeings = [title for title in titles if title.startswith("line ")]
    if len(timeline.bars) > SHOWN_BARS:
        if shares_drawn(tried) != [share for worker in range(timeline.schedule.workers) for share in shares(timeline, worker)]:
            tried.is_wrong("a drawing has other shares")
        if bars or freeings:
            tried.is_wrong("a drawing has bars beside shares")
        if told_of_workers(root) != told_right(timeline):
            tried.is_wrong("a drawing tells otherwise what workers fill and when they are idle")
        return
    if bars != sorted(bar_title(bar) for bar in timeline.bars):
        tried.is_wrong("a drawing has other bars")
    every = max(1, -(-len(timeline.freeings) // SHOWN_FREEINGS))
    if freeings != [freeing.text() for freeing in timeline.freeings[::every]]:
        tried.is_wrong("a drawing has other freed regions")
    for group in root.iter(f"{SVG}g"):
        if group.find(f"{SVG}title") is not None and wrong_look(group):
            tried.is_wrong(f"a drawing shows {group.find(f'{SVG}title').text} by {wrong_look(group)}")
    texts = [text.text for text in root.iter(f"{SVG}text")]
    legend = " ".join(texts)
    for name in ("lines of the schedule, not time", "Heap heap, schedule schedule"):
        if name not in legend:
            tried.is_wrong(f"a drawing has no legend for {name}")
    if [text for text in texts if text in LEGENDS] != legend_of(timeline):
        tried.is_wrong(f"a drawing has another legend: {[text for text in texts if text in LEGENDS]}")
    if (f"Of each {every} drains that freed a region one is shown." in legend) != (every > 1):
        tried.is_wrong(f"a drawing of {len(timeline.freeings)} freed regions says otherwise how many it leaves out")


# The kinds of bars and marks that a drawing may explain.
LEGENDS = (
    "being filled (even region)", "odd region", "being filled (odd region)", "completed, not settled yet", "a drain frees a region",
    "a drain frees a region; a dashed line leads to who takes it",
)
LINKED = 40


def legend_of(timeline: Timeline) -> list[str]:
    """The legend of what is drawn of a schedule, and of nothing else."""
    even, odd = (any(bar.region % 2 == rest for bar in timeline.bars) for rest in (0, 1))
    names = ["being filled (even region)"] * even + ["odd region" if even else "being filled (odd region)"] * odd
    names += ["completed, not settled yet"] * any(bar.completed for bar in timeline.bars)
    links = len(timeline.freeings) <= LINKED and any(freeing.taken for freeing in timeline.freeings)
    return names + [LEGENDS[5 if links else 4]] * bool(timeline.freeings)


def told_of_workers(root: xml.etree.ElementTree.Element) -> list[str]:
    """What stands below the lanes."""
    return [text.text for text in root.iter(f"{SVG}text") if text.get("class") == "t"]


def told_right(timeline: Timeline) -> list[str]:
    """What each worker fills, and when it is idle."""
    told = []
    for worker in range(timeline.schedule.workers):
        regions, words = timeline.filled(worker)
        told += [f"regions filled: {regions}, words: {words}", timeline.idle(worker)]
    return told


def wrong_look(group: xml.etree.ElementTree.Element) -> list[str]:
    """The looks of a bar, where they aren't those of its title: a region is filled, by its number, and may then wait."""
    title, looks = group.find(f"{SVG}title").text, [rect.get("class") for rect in group.iter(f"{SVG}rect")]
    region = re.match(r"region (\d+): ", title)
    if region is None:
        return [] if title.startswith("line ") else looks
    filled = "eo"[int(region[1]) % 2]
    return [] if looks in ([filled], [filled, "w"]) and ("w" in looks) == ("completed in" in title) else looks


def shares(timeline: Timeline, worker: int) -> list[tuple[str, str]]:
    """The looks and titles of the cells of a worker's lane in which it has a region in hand, where regions are too many for a
    bar each."""
    found = []
    for cell in timeline.cells(min(275, 2000 // timeline.schedule.workers)):
        held = min(timeline.held(worker, cell), len(cell))
        look = f"s{LETTERS.index(timeline.share(worker, cell))}"
        found += [(look, f"lines {cell[0]} to {cell[-1]}: {held} of {len(cell)}")] * (held > 0)
    return found


def bar_title(bar) -> str:
    completed = f", completed in line {bar.completed}" if bar.completed else ""
    settled = f"settled in line {bar.settled}" if bar.settled else "not settled"
    return f"region {bar.region}: worker {bar.worker}, claimed in line {bar.claimed}{completed}, {settled}"


def shown_right(tried: Tried, found: dict, machine: Machine, schedule: Schedule) -> None:
    """Whether the page showed and told of each line what the model does."""
    for line, seen in found.get("states", {}).items():
        tried.count += 1
        right = stages_at(machine, schedule.lines[:int(line) - 1])
        shown = {"stages": seen["stages"], "pending": seen["pending"]}
        if seen["told"] != right or shown != {name: right[name] for name in shown} or seen["line"] != int(line):
            tried.is_wrong(f"line {line} of a page shows {seen} and not {right}")
        if seen["label"] != f"line {line} of {found['last']}" or seen["slider"] != int(line):
            tried.is_wrong(f"line {line} of a page is labelled {seen['label']}")


def page_of(tried: Tried, figures: str | None) -> str:
    tried.run("timeline heap schedule --html page", Answer(0, figures))
    page = tried.read("page").decode()
    tried.count += 1
    if part(page, "schedule") != tried.read("schedule").decode():
        tried.is_wrong("a page has another schedule")
    if re.search(r"(?i)https?:|<link|src=|@import|fetch\(|XMLHttp", page):
        tried.is_wrong("a page asks for something else")
    return page


class Controls(html.parser.HTMLParser):
    """The names that a screen reader has of the controls of a page, and where it is told what a page says."""

    def __init__(self, page: str):
        super().__init__()
        self.names: list[str] = []
        self.live: list[str] = []
        # The text of the label or button that is open.
        self.text: str | None = None
        self.feed(page)

    def handle_starttag(self, tag: str, attrs: list[tuple[str, str | None]]) -> None:
        has = dict(attrs)
        if "aria-live" in has:
            self.live.append(has.get("id", ""))
        if tag in ("button", "label"):
            self.text = ""
        if tag in ("button", "input", "select"):
            self.names.append(has.get("aria-label") or self.text or "")

    def handle_endtag(self, tag: str) -> None:
        if tag in ("button", "label"):
            self.text = None

    def handle_data(self, data: str) -> None:
        if self.text is not None:
            self.text += data
            if self.names and not self.names[-1]:
                self.names[-1] = data


def try_controls(tried: Tried, page: str) -> None:
    """Each control of a page has a name of its own, and what a line says is told."""
    controls = Controls(part_of_body(page))
    tried.count += 1
    if len(controls.names) < 15 or len(set(controls.names)) < len(controls.names) or "" in controls.names:
        tried.is_wrong(f"the controls of a page are called {controls.names}")
    if "said" not in controls.live or "Keys: space plays and pauses; left and right" not in page:
        tried.is_wrong("a page doesn't tell what a line says, or which keys it has")


def part_of_body(page: str) -> str:
    """The body of a page without its scripts."""
    return page.split("<body>")[1].split("<script")[0]


def try_pages(tried: Tried) -> None:
    """What pages show of given lines, and what their words and keys do."""
    tried.write("heap", image(WORDS, LIVE, 0))
    tried.write("schedule", BASE)
    schedule = read(BASE.encode())
    machine = Machine(model.Collection(model.decode(image(WORDS, LIVE, 0))))
    page = page_of(tried, TEXT.splitlines(True)[0])
    keys = ["ArrowRight", "ArrowRight", "ArrowLeft", "End", "ArrowRight", "PageUp", "PageDown", "Home", "ArrowLeft", " ", " ", "x", "r", "r", "R", "w", "W"]
    lines = [[2, False], [3, False], [2, False], [27, False], [27, False], [1, False], [27, False], [1, False], [1, False], [1, True], [1, False], [1, False],
             [2, False], [3, False], [2, False], [9, False], [2, False]]
    if '<p id="whose">Heap heap, schedule schedule</p>' not in page:
        tried.is_wrong("a page doesn't say whose heap it shows")
    found, said = run_page(page, {"lines": list(range(1, 28)), "keys": keys}, tried.folder)
    tried.count += 2
    if said or found.get("keys") != lines:
        tried.is_wrong(f"keys lead to {found.get('keys')}; {said}")
    for line, words in WORDS_OF.items():
        tried.count += 1
        if found.get("words", {}).get(str(line)) != words:
            tried.is_wrong(f"of line {line} a page says {found.get('words', {}).get(str(line))}")
    for line, does in DOES_IN.items():
        tried.count += 1
        if found.get("workers", {}).get(str(line)) != does:
            tried.is_wrong(f"in line {line} a page says of workers {found.get('workers', {}).get(str(line))}")
    if found.get("filled") != FILLS:
        tried.is_wrong(f"a page says that workers fill {found.get('filled')}")
    try_controls(tried, page)
    shown_right(tried, found, machine, schedule)
    try_prefix(tried)
    chance = random.Random(5)
    for wanted in (Wanted(4096, 6, 60, 25, 2, 900, 3), Wanted(8192, 3, 60, 25, 1, 0, 4)):
        heap, _ = generated(wanted)
        collection = model.Collection(heap)
        schedule = interleaved(collection, 4, chance)
        tried.write("heap", model.encode(heap))
        tried.write("schedule", schedule.text())
        page = page_of(tried, Timeline(schedule, "finished").figures())
        last = len(schedule.lines) + 1
        lines = [1, 2, last - 1, last, *(chance.randint(1, last) for _ in range(4))]
        found, said = run_page(page, {"lines": lines, "keys": []}, tried.folder)
        if said or len(found.get("states", {})) != len(set(lines)):
            tried.is_wrong(f"a page of {wanted} fails: {said}")
        shown_right(tried, found, Machine(collection), schedule)


def word_said(collection: model.Collection, address: int, is_written: bool) -> str:
    """What the page says of a word, as it was or as it is written."""
    heap, size = collection.image, collection.region_words
    old = collection.origins.get(address) if is_written else address
    if old not in collection.owner:
        return f"word {address}: {'filler' if is_written else 'dead word'}"
    a, word = collection.owner[old], heap.words[old]
    names = {b: chr(65 + i) for i, b in enumerate(collection.live)}
    count, end = model.references_of(heap.words[a]), collection.new[a] + model.size_of(heap.words[a])
    is_late = collection.new[a] // size != (end - 1) // size
    if old == a:
        words = end - collection.new[a]
        said = f"header of object {names[a]}, {words} word{'s' * (words != 1)}, {count} reference{'s' * (count != 1)}"
    elif old > a + count:
        said = f"data word of object {names[a]}, {word}"
    elif not word:
        said = f"null reference of object {names[a]}"
    else:
        said = f"reference of object {names[a]} to object {names[word - 1]}, "
        said += f"redirected to {collection.new[word - 1]}" if is_written and not is_late else f"at {word - 1}"
        said += ", redirected once all regions are filled" if is_written and is_late else ""
    return f"word {address}: {said}" + (f", from word {old} of region {old // size}" if old != address else "")


def try_heap_words(tried: Tried) -> None:
    """The words of the base heap after each line, beside the model; those of a large heap aren't on the page."""
    for allowance in (0, 2):
        heap = dataclasses.replace(model.decode(tried.read("base")), allowance=allowance)
        collection = model.Collection(heap)
        tried.write("heap", model.encode(heap))
        tried.run("record heap out schedule --workers 2 --turns", Answer(0, None))
        tried.run("timeline heap schedule --html page", Answer(0, None))
        calls = [line.split() for line in tried.read("schedule").decode().splitlines()[1:]]
        lines = range(1, len(calls) + 2)
        found, _ = run_page(tried.read("page").decode(), {"lines": list(lines), "keys": []}, tried.folder)
        for line in lines if found and found["states"]["1"]["words"] else ():
            tried.count += 1
            written = collections.Counter()
            for _, _, region, number, _ in (call for call in calls[:line - 1] if call[1] == "copy"):
                written[int(region)] += int(number)
            size = collection.region_words
            wanted = [word_said(collection, p, p % size < written[p // size]) for p in range(len(heap.words))]
            if found["states"][str(line)]["words"] != wanted:
                tried.is_wrong(f"the words after line {line} with allowance {allowance} are others")
    tried.write("heap", model.encode(generated(Wanted(264, 3, 50, 25, 2, 0, 7))[0]))
    tried.run("record heap out schedule --workers 1", Answer(0, None))
    tried.run("timeline heap schedule --html page", Answer(0, None))
    if 'id="heap">\n</script>' not in tried.read("page").decode():
        tried.is_wrong("a page has the words of a large heap")


def try_prefix(tried: Tried) -> None:
    """A region of the dense prefix keeps its words, which come from no other region."""
    tried.write("heap", image(WORDS, LIVE, 2))
    tried.write("schedule", "schedule 1 1\n0 claim 0 yes\n0 copy 0 8 ok\n")
    found, said = run_page(page_of(tried, None), {"lines": [3], "keys": []}, tried.folder)
    tried.count += 1
    words = ["Worker 0 leaves 8 words of region 0 where they are, dead ones as fillers; written now: 8.", COPIED]
    if said or found.get("words", {}).get("3") != words:
        tried.is_wrong(f"of a region of the dense prefix a page says {found.get('words')}; {said}")


def try_large(tried: Tried) -> None:
    """A schedule of more than 100,000 lines: its text, its drawing, and how long a page takes to open and to step."""
    tried.run("generate heap --words 131072 --live 97 --region-log 3 --seed 3", Answer(0, None))
    tried.run("record heap out schedule --workers 4", Answer(0, None))
    schedule = read(tried.read("schedule"))
    tried.count += 3
    if len(schedule.lines) < 100_000:
        tried.is_wrong(f"the large schedule has {len(schedule.lines)} lines alone")
    tried.run("timeline heap schedule --letters", Answer(0, None))
    tried.run("timeline heap schedule --svg drawn", Answer(0, None))
    drawn = tried.read("drawn")
    xml.etree.ElementTree.fromstring(drawn)
    if len(drawn) >= MAX_BYTES:
        tried.is_wrong(f"a large drawing has {len(drawn)} bytes")
    page = page_of(tried, None)
    begun = time.monotonic()
    found, said = run_page(page, {"lines": [len(schedule.lines) + 1, 50_000], "keys": []}, tried.folder)
    print(f"{len(schedule.lines)} lines: opened and driven in {time.monotonic() - begun:.1f} seconds, a jump takes {found.get('step', 0):.1f} milliseconds")
    if said or not found or found["step"] > 100:
        tried.is_wrong(f"a large page fails or is slow: {found.get('step')} {said}")


def main() -> None:
    words = argparse.ArgumentParser()
    words.add_argument("program", nargs="?", type=pathlib.Path)
    words.add_argument("--write", action="store_true")
    asked = words.parse_args()
    name = runner()
    groups = [try_base, try_open, try_contrast, try_seeded, try_many, *([try_pages, try_heap_words, try_large, try_layout] if name else [])]
    with tempfile.TemporaryDirectory() as room:
        tried = Tried(asked.program or built(), pathlib.Path(room))
        if asked.write:
            write_drawing(tried)
        for group in groups:
            group(tried)
    print(f"pages run by {name}" if name else "neither a browser nor Node.js is here: pages are not run")
    print(f"{tried.count - tried.wrong} passed, {tried.wrong} failed")
    sys.exit(tried.wrong > 0)


if __name__ == "__main__":
    main()
