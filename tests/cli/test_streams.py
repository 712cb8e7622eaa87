#!/usr/bin/env python3
"""`-` as standard input and output, `--json`, what comes on a terminal alone, and a reader that is gone.

usage: tests/cli/test_streams.py [PROGRAM]
"""
import json
import os
import pathlib
import re
import subprocess
import sys

# Finds the package `tests` from any folder, and writes nothing beside its modules.
sys.dont_write_bytecode = True
sys.path.insert(0, str(pathlib.Path(__file__).resolve().parents[2]))
from tests.cli.test_import import DUMP, NAME, imported
from tests.models.heap_text import text_of
from tests.models.image import decode
from tests.support.cases import BASE, COLLECTED, COMPACTED, MOVED, MOVED_LIVE, REPORT, WORDS, image, rooted, try_groups
from tests.support.program import Answer, Tried, fault
from tests.support.terminal import on_terminal

# Of each line that may print an object the options that may have a value.
OBJECTS = {
    "summary base": ("--verbose",),
    "order base": ("--verbose",),
    "collect base out --workers 2": ("--verbose", "--progress"),
    "verify base compacted": ("--verbose", "--progress"),
    "import dump out": ("--verbose", "--progress"),
    "import dump out --classes list": ("--verbose", "--progress"),
    "import dump out --histogram 3": ("--verbose", "--progress"),
}
SAME = Answer(2, err="pcompact: same file\n")
IRREGULAR = Answer(2, err="pcompact: not a regular file\n")


def piped(tried: Tried, line: str, given: bytes = b"") -> subprocess.CompletedProcess:
    """What a line of the shell does, in which `pcompact` is the program."""
    tried.count += 1
    return subprocess.run(["sh", "-c", line.replace("pcompact", str(tried.program))], cwd=tried.folder, input=given,
                          capture_output=True, timeout=60)


def try_standard(tried: Tried) -> None:
    """`-` where a file is read or written: a pipe, and a file that the shell has opened."""
    summary = subprocess.run([tried.program, "summary", "base"], cwd=tried.folder, capture_output=True, text=True).stdout
    tried.run("summary -", Answer(0, summary), input=BASE)
    with (tried.folder / "base").open("rb") as base:
        tried.run("summary -", Answer(0, summary), stdin=base)
    tried.run("collect - out --workers 2", Answer(0, COLLECTED, made={"out": COMPACTED}), input=BASE)
    tried.run("verify - out", Answer(0, "same\n"), input=BASE)
    for line, given, out, err in (
            ("pcompact collect base - --workers 2", b"", COMPACTED, COLLECTED.encode()),
            ("pcompact collect - - --workers 2", BASE, COMPACTED, COLLECTED.encode()),
            ("pcompact text - | pcompact assemble - -", BASE, BASE, b"words 32 roots 0 live 4\n"),
            ("pcompact map - --svg - >drawing; head -c 4 drawing", BASE, b"<?xm", None),
            ("pcompact summary - | cat", BASE, summary.encode(), b"")):
        done = piped(tried, line, given)
        if done.stdout != out or err not in (done.stderr, None):
            tried.is_wrong(f"{line}: {done.stdout[:80]!r}, {done.stderr!r}")
    for words in ("verify - -", "replay - -", "record base - - --workers 1", "record - - - --workers 1"):
        tried.run(words, SAME, input=BASE)
    tried.run("collect base - --workers 1 --atomic", IRREGULAR)
    tried.write("-", BASE)
    tried.run("summary ./-", Answer(0, summary))
    (tried.folder / "-").unlink()


def try_pieces(tried: Tried) -> None:
    """Two regions of the largest size, and many small ones, that come and go in pieces."""
    words = [a << 32 | a for a in range(131_072)]
    for log in (3, 16):
        tried.write("image", image(words, [], log=log))
        done = piped(tried, "dd if=image bs=10000 2>/dev/null | pcompact upgrade - - | dd bs=10000 2>/dev/null")
        if (done.stdout, done.stderr) != (rooted(words, [], log=log), b"roots 0\n"):
            tried.is_wrong(f"regions of 2 ^ {log} words from a pipe are others: {done.stderr!r}")
        tried.run("text -", Answer(0, text_of(decode(tried.read("image")))), input=tried.read("image"))


def try_dumps(tried: Tried) -> None:
    """A dump from a pipe, and a stream that is none and never ends."""
    tried.run("import - out", imported(DUMP), input=DUMP)
    tried.run("import /dev/stdin out", imported(DUMP), input=DUMP)
    for name, reason in (("/dev/null", "byte 0: the dump ends here, inside a record"), ("/dev/zero", NAME)):
        tried.run(f"import {name} out", Answer(1, err=f"pcompact: {reason}\n", made={"out": None}))
    done = piped(tried, "pcompact import - - --region-log 3 | pcompact collect - out --workers 4", DUMP)
    if done.returncode or not done.stdout.startswith(b"prefix "):
        tried.is_wrong(f"import to collect: {done}")


def try_objects(tried: Tried) -> None:
    """Each object has the names and numbers of the text."""
    tried.write("dump", DUMP)
    for words in ("order base", "collect base out --workers 2", "import dump out", "import dump out --classes list"):
        text = subprocess.run([tried.program, *words.split()], cwd=tried.folder, capture_output=True, text=True).stdout.split()
        wanted = {name.replace("-", "_"): json.loads(value) for name, value in zip(text[::2], text[1::2], strict=True)}
        said = subprocess.run([tried.program, *words.split(), "--json"], cwd=tried.folder, capture_output=True, text=True)
        tried.count += 1
        if json.loads(said.stdout) != wanted or said.stderr or said.stdout.count("\n") != 1:
            tried.is_wrong(f"pcompact {words} --json: {said}")
        for option in ("--verbose=always", "--verbose=never", "--verbose=auto"):
            tried.run(f"{words} --json {option}", Answer(0, said.stdout))
    tried.run("collect base out --workers 2 --json --progress=never", Answer(0, '{"prefix":0,"top":19,"filled":3}\n', made={"out": COMPACTED}))
    tried.run("collect base out --workers 2", Answer(0, COLLECTED))
    tried.run("verify base out --json", Answer(0, '{"same":true}\n'))
    tried.write("rooted", rooted(WORDS, [21]))
    tried.run("collect rooted moved --workers 1", Answer(0, None))
    for before, after, told in (("base", BASE, {"differs": "word", "at": 1}),
                                ("base", image(MOVED, MOVED_LIVE, allowance=1), {"differs": "shape"}),
                                ("rooted", tried.read("moved")[:-8] + (1).to_bytes(8, "little"), {"differs": "root", "at": 0})):
        tried.write("after", after)
        told = json.dumps({"same": False, **told}, separators=(",", ":"))
        said = subprocess.run([tried.program, "verify", before, "after"], cwd=tried.folder, capture_output=True, text=True).stderr
        tried.run(f"verify {before} after --json", Answer(1, f"{told}\n", said, is_whole=True))
    tried.run("verify base nothing --json", fault("13 input or output"))
    with open("/dev/full", "wb") as full:
        tried.run("verify base base --json", fault("13 input or output"), stdout=full)
    lines = subprocess.run([tried.program, "summary", "base"], cwd=tried.folder, capture_output=True, text=True).stdout.splitlines()
    names = ["region", "partial", "live", "dest", "count", "source"]
    regions = [dict(zip(names, [None if word == "-" else int(word) for word in line.split()], strict=True)) for line in lines[1:]]
    said = subprocess.run([tried.program, "summary", "base", "--json"], cwd=tried.folder, capture_output=True, text=True)
    tried.count += 1
    if json.loads(said.stdout) != {"prefix": 0, "top": 19, "regions": regions}:
        tried.is_wrong(f"pcompact summary base --json: {said}")


def try_objects_beside(tried: Tried) -> None:
    """An object stays one beside each option with a value."""
    tried.write("dump", DUMP)
    tried.write("compacted", COMPACTED)
    for words, options in OBJECTS.items():
        words = f"{words} --json"
        said = subprocess.run([tried.program, *words.split()], cwd=tried.folder, capture_output=True, text=True).stdout
        tried.count += 1
        if not isinstance(json.loads(said), dict):
            tried.is_wrong(f"pcompact {words}: {said!r}")
        for option in (f"{name}={when}" for name in options for when in ("auto", "always", "never")):
            err = re.compile(".*", re.DOTALL) if option == "--progress=always" else ""
            tried.run(f"{words} {option}", Answer(0, said, err))


def try_terminal(tried: Tried) -> None:
    """Details come by themselves, on a terminal or not; the option decides where it has a value."""
    first = "pcompact: fault 13 input or output\n"
    more = first + "pcompact: file IMAGE nothing\npcompact: call open\npcompact: reason no such file or folder\n"
    for option, wanted in (("", more), ("--verbose", more), ("--verbose=auto", more), ("--verbose=never", first)):
        if (found := on_terminal(tried, f"summary nothing {option}")) != (1, wanted):
            tried.is_wrong(f"summary nothing {option}, on a terminal: {found}")
        tried.run(f"summary nothing {option}", Answer(1, err=wanted, is_whole=True))
    tried.run("summary nothing --verbose=always", Answer(1, err=more))
    tried.run("summary -- --verbose=never", Answer(1, err=more.replace("nothing", "--verbose=never")))


def try_heading(tried: Tried) -> None:
    """The names of the columns come with the option and on a terminal, and in an object never."""
    first, rows = REPORT.split("\n", 1)
    headed = f"{first}\n  region  partial     live     dest    count   source\n{rows}"
    tried.run("summary base", Answer(0, REPORT))
    tried.run("summary base --heading", Answer(0, headed))
    for words, wanted in (("summary base", headed), ("summary base --heading", headed), ("order base", "chain 19 words 19 speedup 1.00 workers 1\n")):
        if (found := on_terminal(tried, words, "stdout")) != (0, wanted):
            tried.is_wrong(f"{words}, on a terminal: {found}")
    for words in ("summary base --json", "summary base --json --heading"):
        if "partial " in (found := on_terminal(tried, words, "stdout"))[1] or found != on_terminal(tried, "summary base --json", "stdout"):
            tried.is_wrong(f"{words}, on a terminal: {found}")


def try_gone(tried: Tried) -> None:
    """A reader of standard output that is gone: the status of SIGPIPE, and nothing on standard error."""
    tried.write("dump", DUMP)
    seeded = "--words 131072 --live 50 --region-log 9 --seed 1"
    for words in ("summary base", "summary base --json --verbose", "collect base - --workers 2", "collect base /dev/stdout --workers 1",
                  "collect base - --workers 1 --verbose --stats", "record base out - --workers 1", "upgrade base -",
                  "map base --svg - --verbose=always", "import dump -", f"generate - {seeded}"):
        reading, writing = os.pipe()
        os.close(reading)
        with os.fdopen(writing, "wb") as gone:
            tried.run(words, Answer(141), stdout=gone)
    tried.run(f"generate large {seeded}", Answer(0, None))
    for words in ("collect large - --workers 2", "text large"):
        tried.count += 1
        with subprocess.Popen([tried.program, *words.split()], cwd=tried.folder, stdout=subprocess.PIPE, stderr=subprocess.PIPE) as process:
            process.stdout.read(4)
            process.stdout.close()
            said = process.stderr.read()
        if (process.returncode, said) != (141, b""):
            tried.is_wrong(f"pcompact {words} | head -c 4: {process.returncode}, {said!r}")


GROUPS = (try_standard, try_pieces, try_dumps, try_objects, try_objects_beside, try_terminal, try_heading, try_gone)

if __name__ == "__main__":
    sys.exit(try_groups(GROUPS))
