#!/usr/bin/env python3
"""Images that are read with another region log or allowance: each command must answer as of a file whose head has these values.

usage: tests/cli/test_shapes.py [PROGRAM]
"""
import dataclasses
import pathlib
import subprocess
import sys

# Finds the package `tests` from any folder, and writes nothing beside its modules.
sys.dont_write_bytecode = True
sys.path.insert(0, str(pathlib.Path(__file__).resolve().parents[2]))
from tests.cli.test_import import DUMP
from tests.cli.test_verbose import told
from tests.models.image import FRONT
from tests.support.cases import BASE, COLLECTED, COMPACTED, LIVE, ONE_WORKER, WORDS, head, rooted, try_groups
from tests.support.program import Answer, Tried, fault

# Each command, with one worker where what it makes depends on who came first, and the files that it makes.
COMMANDS = {
    "summary image": (), "summary image --json": (), "order image": (), "order image --json": (),
    "map image --after --letters --height 2": (), "map image --after --svg drawing": ("drawing",),
    "collect image out --workers 2": ("out",), "collect image out --workers 3 --atomic --json": ("out",),
    "record image out schedule --workers 1": ("out", "schedule"), "verify image out": (), "verify image out --ignore-free": (),
    "replay image schedule": (), "timeline image schedule --letters": (),
    "timeline image schedule --svg drawing": ("drawing",), "timeline image schedule --html page": ("page",),
}
PARTIAL = "the number of words is not a multiple of the words of a region"
TOO_MANY = "there are more than 16384 regions"


@dataclasses.dataclass(frozen=True)
class Shape:
    """A region log and an allowance, if they are others than those of a head."""
    region_log: int | None = None
    allowance: int | None = None

    def options(self) -> str:
        names = {"--region-log": self.region_log, "--allowance": self.allowance}
        return "".join(f" {name} {value}" for name, value in names.items() if value is not None)

    def of(self, text: bytes) -> bytes:
        """The text with these values in its head."""
        magic, region_log, count, words, allowance = FRONT.unpack_from(text)
        region_log = region_log if self.region_log is None else self.region_log
        allowance = allowance if self.allowance is None else self.allowance
        return FRONT.pack(magic, region_log, count, words, allowance) + text[FRONT.size:]


SHAPES = [Shape(3), Shape(4), Shape(5), Shape(None, 0), Shape(None, 3), Shape(None, 9), Shape(None, 2 ** 64 - 1), Shape(4, 7),
          Shape(5, 1), Shape(6), Shape(16, 5), Shape(17), Shape(20, 5)]


def answered(tried: Tried, words: str, made: tuple[str, ...] = ()) -> Answer:
    """What the program answers of these words, and makes."""
    for name in made:
        (tried.folder / name).unlink(missing_ok=True)
    done = subprocess.run([tried.program, *words.split()], cwd=tried.folder, capture_output=True, text=True, timeout=60)
    files = {name: tried.read(name) if (tried.folder / name).exists() else None for name in made}
    return Answer(done.returncode, done.stdout, done.stderr, files)


def try_shape(tried: Tried, text: bytes, shape: Shape) -> None:
    """All commands over a text with this shape, beside those over the text that has it in its head."""
    tried.write("schedule", ONE_WORKER)
    tried.write("image", shape.of(text))
    wanted = {words: answered(tried, words, made) for words, made in COMMANDS.items()}
    tried.write("schedule", ONE_WORKER)
    tried.write("image", text)
    for words, answer in wanted.items():
        tried.run(f"{words}{shape.options()}", answer)
    out = wanted["collect image out --workers 2"]
    if out.status == 0 and shape.of(text) != text:
        tried.write("out", out.made["out"])
        tried.run("verify image out", Answer(1, err="pcompact: differs shape\n"))


def try_small(tried: Tried) -> None:
    """The base heap, and generated ones with a dense prefix, in each version."""
    texts = [BASE, rooted(WORDS, [1 + a for a in LIVE])]
    for version in (1, 2, 3):
        tried.run(f"generate heap --words 1024 --live 80 --region-log 4 --seed {version} --version {version}", Answer(0, None))
        texts.append(tried.read("heap"))
    for text in texts:
        for shape in SHAPES:
            try_shape(tried, text, shape)


def try_dense_prefix(tried: Tried) -> None:
    """A larger allowance leaves more words where they are."""
    tried.run("generate heap --words 4096 --live 90 --region-log 4 --seed 5", Answer(0, None))
    ends = [int(answered(tried, f"summary heap --allowance {allowance}").out.split()[1]) for allowance in (0, 40, 200, 2 ** 40)]
    if ends != sorted(ends) or ends[0] == ends[-1]:
        tried.is_wrong(f"the prefix ends at {ends}")


def try_wrong_heads(tried: Tried) -> None:
    """Which fault comes is decided by the head with the new values."""
    length, partial, too_many = "fault 4 length", f"reason {PARTIAL}", f"reason {TOO_MANY}"
    tried.write("schedule", ONE_WORKER)
    tried.write("image", BASE)
    for words, made in COMMANDS.items():
        file = "BEFORE" if words.startswith("verify") else "IMAGE"
        tried.run(f"{words} --region-log 6 --verbose", told(length, f"file {file} image", partial, made=dict.fromkeys(made)))
        tried.write("schedule", ONE_WORKER)
        tried.write("out", COMPACTED)
    # What is too many regions, or no region log, in the head alone.
    tried.write("image", head(4, 0, 1 << 18))
    tried.run("summary image", fault("5 truncated body"))
    tried.run("summary image --region-log 3 --verbose", told(length, "file IMAGE image", too_many))
    tried.write("image", head(3, 0, 1 << 18))
    tried.run("summary image", fault("4 length"))
    tried.run("summary image --region-log 4", fault("5 truncated body"))
    for log in (0, 2, 17, 2 ** 32 - 1):
        tried.write("image", head(log, 4, 32) + BASE[FRONT.size:])
        tried.run("summary image", fault("3 region log"))
        tried.run("collect image out --workers 2 --region-log 3", Answer(0, COLLECTED, made={"out": COMPACTED}))
    for text, said in ((b"", "1 truncated header"), (BASE[:31], "1 truncated header"), (b"X" * 320, "2 magic"),
                       (BASE[:319], "5 truncated body"), (BASE + b"\0", "10 trailing bytes")):
        tried.write("image", text)
        tried.run("summary image --region-log 4 --allowance 5", fault(said))
    tried.write("image", DUMP)
    tried.run("summary image --region-log 4 --allowance 5 --verbose",
              told("fault 2 magic", "file IMAGE image", "hint it is a heap dump, pcompact import makes an image of it"))


def try_streams(tried: Tried) -> None:
    """An image from a pipe, whole and in pieces that end inside its head."""
    shape = Shape(4, 7)
    tried.write("image", shape.of(BASE))
    wanted = answered(tried, "collect image out --workers 2", ("out",))
    tried.run(f"collect - out --workers 2{shape.options()}", wanted, input=BASE)
    tried.write("image", BASE)
    for first, second in ((1, 8), (9, 2), (10, 15), (25, 6), (31, 1), (32, 8)):
        pieces = f"head -c {first} image; sleep 0.02; tail -c +{first + 1} image | head -c {second}; sleep 0.02; tail -c +{first + second + 1} image"
        line = f"({pieces}) | {tried.program} collect - out --workers 2{shape.options()}"
        done = subprocess.run(["sh", "-c", line], cwd=tried.folder, capture_output=True, text=True, timeout=60)
        tried.count += 1
        if (done.stdout, done.stderr, tried.read("out")) != (wanted.out, "", wanted.made["out"]):
            tried.is_wrong(f"{line}: {done}")


def try_large(tried: Tried) -> None:
    """A file that several threads read, and a pipe with the same bytes."""
    for version in (1, 2, 3):
        tried.run(f"generate heap --words 262144 --live 70 --region-log 9 --seed 3 --version {version}", Answer(0, None))
        text = tried.read("heap")
        for shape in (Shape(6), Shape(16), Shape(None, 2000), Shape(5, 900), *[Shape(17, 300)] * (version == 3)):
            tried.write("image", shape.of(text))
            wanted = answered(tried, "collect image out --workers 4", ("out",))
            for workers in (1, 2, 4, 64):
                tried.run(f"collect heap out --workers {workers}{shape.options()}", wanted)
            tried.run(f"collect - out --workers 4{shape.options()}", wanted, input=text)
            tried.run(f"record heap out schedule --workers 4{shape.options()}", wanted)
            tried.run(f"verify heap out{shape.options()}", Answer(0, "same\n"))
            finished = tried.read("schedule").decode() + "finished\n"
            tried.run(f"replay heap schedule{shape.options()}", Answer(0, finished))


GROUPS = (try_small, try_dense_prefix, try_wrong_heads, try_streams, try_large)

if __name__ == "__main__":
    sys.exit(try_groups(GROUPS))
