"""Images whose collection is known, and what each command must answer of an image."""
import pathlib
import struct
import sys
import tempfile
from collections.abc import Callable, Iterable

from tests.models import image as model
from tests.models.image import header
from tests.support.program import TOP, Answer, Tried, built, fault

BASE = (TOP / "examples" / "base.pcheap").read_bytes()

REPORT = """prefix 0 top 19
       0        0        6        0        0        0
       1        1        2        6        1        1
       2        0        4        9        1        3
       3        6        0       13        2        -
"""
COLLECTED = "prefix 0 top 19 filled 3\n"
ONE_WORKER = """schedule 1 1
0 claim 0 yes
0 copy 0 6 ok
0 copy 0 2 ok
0 drain 0 1 last
0 complete 0 ok
0 settle 0 more
0 claim 1 yes
0 copy 1 1 ok
0 copy 1 4 ok
0 drain 1 2 last
0 copy 1 3 ok
0 drain 1 3 notlast
0 complete 1 ok
0 settle 1 more
0 claim 2 yes
0 copy 2 3 ok
0 drain 2 3 last
0 complete 2 ok
0 settle 2 all
"""
TWO_WORKERS = """schedule 1 2
0 claim 0 yes
0 copy 0 8 ok
0 drain 0 1 last
1 claim 1 yes
1 copy 1 8 ok
1 drain 1 2 last
1 drain 1 3 notlast
0 claim 2 yes
0 copy 2 3 ok
0 drain 2 3 last
0 complete 0 ok
1 complete 1 ok
0 complete 2 ok
0 settle 2 more
1 settle 1 more
0 settle 0 all
"""


def image(words: list[int], live: list[int], allowance: int = 0, log: int = 3) -> bytes:
    """The text of an image of version 1, valid or not."""
    return model.encode(model.Image(1, log, allowance, words, live))


def rooted(words: list[int], roots: list[int], allowance: int = 0, log: int = 3, version: int = 2) -> bytes:
    """The text of an image of version 2 or 3, valid or not."""
    return model.encode(model.Image(version, log, allowance, words, roots))


def head(log: int, count: int, words: int = model.MAX_WORDS, magic: bytes = b"PCHEAP01") -> bytes:
    return struct.pack("<8sIIQQ", magic, log, count, words, 0)


WORDS = list(struct.unpack_from("<32Q", BASE, 32))
LIVE = [0, 5, 12, 20]
SMALL = [header(1, 0), 999, header(1, 0), header(5, 2), 3, 4, 106, 107]
MOVED = [header(3, 2), 4, 10, header(4, 1), 8, 107, 108, header(2, 1), 1, header(10, 8), 10, 0, 4, 8, 1, 0, 10, 4, 129]
MOVED += [0] * 13
MOVED_LIVE = [0, 3, 7, 9]
COMPACTED = image(MOVED, MOVED_LIVE)


def with_word(words: list[int], address: int, word: int) -> list[int]:
    return [*words[:address], word, *words[address + 1:]]


def try_refused(tried: Tried, text: bytes, said: str) -> None:
    """An image that is none, under each command that reads one."""
    tried.write("image", text)
    tried.write("schedule", ONE_WORKER)
    tried.run("summary image", fault(said))
    tried.run("collect image out --workers 2", fault(said, {"out": None}))
    tried.run("record image out schedule2 --workers 2", fault(said, {"out": None, "schedule2": None}))
    tried.run("upgrade image out", fault(said, {"out": None}))
    tried.run("replay image schedule", fault(said))
    tried.run("verify image base", fault(said))
    tried.run("verify base image", fault(said))


def try_collected(tried: Tried, text: bytes, figures: str, after: bytes) -> None:
    """What `collect`, `record`, `replay` and `verify` make of an image, by 1 to 64 workers; and of its upgrade."""
    tried.write("image", text)
    collected = Answer(0, figures, made={"out": after})
    for workers in (1, 2, 3, 4, 64):
        tried.run(f"collect image out --workers {workers}", collected)
        tried.run(f"record image out schedule --workers {workers}", collected)
        schedule = tried.read("schedule").decode()
        if not schedule.startswith(f"schedule 1 {workers}\n"):
            tried.is_wrong(f"a schedule of {workers} workers begins with another line")
        tried.run("replay image schedule", Answer(0, schedule + "finished\n"))
    tried.run("verify image out", Answer(0, "same\n"))
    try_upgraded(tried, text)
    for version in range(max(2, model.decode(text).version), 4):
        tried.write("rooted", upgraded(text, version))
        tried.run("collect rooted out --workers 2", Answer(0, figures, made={"out": upgraded(after, version)}))


def upgraded(text: bytes, version: int = 2) -> bytes:
    """The text of an image, upgraded to this version."""
    return model.encode(model.upgraded(model.decode(text), version))


def try_upgraded(tried: Tried, text: bytes) -> None:
    """What `upgrade` makes of the image with this text in each version, and then of the result."""
    tried.write("image", text)
    for words, version in (("", 2), (" --to 2", 2), (" --to 3", 3)):
        if model.decode(text).version > version:
            tried.run(f"upgrade image rooted{words}", later({"rooted": None}))
            continue
        right = upgraded(text, version)
        roots = f"roots {len(model.decode(right).roots())}\n"
        tried.run(f"upgrade image rooted{words}", Answer(0, roots, made={"rooted": right}))
        tried.run(f"upgrade rooted again{words}", Answer(0, roots, made={"again": right}))


def later(made: dict[str, bytes | None]) -> Answer:
    """The answer of an upgrade of an image of version 3 to version 2."""
    return Answer(1, err="pcompact: version 3 can't be upgraded to version 2\n", made=made)


def try_groups(groups: Iterable[Callable[[Tried], None]]) -> int:
    """Runs groups of cases, in a new folder with the base heap, on the program that the words name or the one that fits the
    sources. Prints how many passed. The status to end with."""
    with tempfile.TemporaryDirectory() as folder:
        tried = Tried(pathlib.Path(sys.argv[1]) if len(sys.argv) > 1 else built(), pathlib.Path(folder))
        tried.write("base", BASE)
        for group in groups:
            group(tried)
    print(f"{tried.count - tried.wrong} passed, {tried.wrong} failed")
    return 1 if tried.wrong else 0
