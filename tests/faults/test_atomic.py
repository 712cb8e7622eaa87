#!/usr/bin/env python3
"""Runs the built program with --atomic: files are replaced only once a command has ended well.

OUT and SCHEDULE hold something else before. Where the command ends well they hold the right bytes, where it doesn't
they hold what they held; and no other file is left in the folder. The command meets each kind of fault: words, images,
workers, files that can't be opened, a full device, a limit on the size of files, each call on files failing in turn,
each allocation refused in turn. Further: collections in place, what stands at OUT and is no regular file, links,
permissions, names that are taken. Ends with status 1 where something is another way.

usage: tests/faults/test_atomic.py [PROGRAM]      (needs a C compiler)
"""
import contextlib
import fcntl
import os
import pathlib
import resource
import socket
import stat
import subprocess
import sys
import tempfile

# Finds the package `tests` from any folder, and writes nothing beside its modules.
sys.dont_write_bytecode = True
sys.path.insert(0, str(pathlib.Path(__file__).resolve().parents[2]))
from tests.cli.test_import import CUT, DUMP, refused
from tests.models import dump as dump_model
from tests.models import generated_heap as heap_model
from tests.models import image as model
from tests.support.cases import BASE, COLLECTED, COMPACTED, MOVED, ONE_WORKER, WORDS, image, rooted, upgraded, with_word
from tests.support.program import PRELOAD, Answer, Tried, built, fault, launcher, outside, owed, usage

FULL = pathlib.Path("/dev/full")
FAULT_13 = "13 input or output"
# How many calls find out whether a file is standard output, with --atomic.
LOOKS = 5
SAME = Answer(2, err="pcompact: same file\n")
IRREGULAR = Answer(2, err="pcompact: not a regular file\n")
OLD = b"what stood there before" * 40
ROOTED = rooted(WORDS, [21, 0])
COMMANDS = {
    "collect heap out --workers 2 --atomic": (COLLECTED, {"out": COMPACTED}),
    "record heap out schedule --workers 1 --atomic": (COLLECTED, {"out": COMPACTED, "schedule": ONE_WORKER.encode()}),
    "upgrade heap out --atomic": ("roots 4\n", {"out": upgraded(BASE)}),
}
IMPORT = "import heap out --region-log 3 --atomic"
IMPORTED = dump_model.make(DUMP, 3)
GENERATE = "generate out --words 64 --live 50 --region-log 3 --seed 1 --atomic"
GENERATED, GENERATED_LINE = heap_model.generated(heap_model.Wanted(64, 3, 50, 25, 2, 0, 1))
MADE = {
    IMPORT: (f"{IMPORTED.line}\n", {"out": IMPORTED.image}),
    GENERATE: (GENERATED_LINE, {"out": model.encode(GENERATED)}),
}
UNSOUND = [
    (BASE[:31], "1 truncated header"), (b"#!/bin/sh\n" * 4, "2 magic"), (BASE[:8] + b"\2" + BASE[9:], "3 region log"),
    (BASE[:16] + bytes(8) + BASE[24:], "4 length"), (BASE[:319], "5 truncated body"),
    (image(WORDS, [0, 5, 5, 20]), "6 live order at index 2"), (image(WORDS, [0, 3, 12, 20]), "7 header at 3"),
    (image(with_word(WORDS, 0, WORDS[0] + 3), [0, 5, 12, 20]), "8 overlap at 5"),
    (image(with_word(WORDS, 23, 10), [0, 5, 12, 20]), "9 reference at 20 field 2"), (BASE + b"\0", "10 trailing bytes"),
    *((rooted(WORDS, [4, 33], version=version), "17 root at index 1") for version in (2, 3)),
]


class Folder:
    """A folder in which the program runs, and what lies there."""

    def __init__(self, tried: Tried):
        self.tried = tried

    def lay(self, **files: bytes) -> None:
        """Makes these the files of the folder, and nothing else but the program."""
        for path in self.tried.folder.iterdir():
            if path != self.tried.program:
                path.rmdir() if path.is_dir() and not path.is_symlink() else path.unlink()
        for name, content in files.items():
            self.tried.write(name, content)

    def holds(self, what: str, **files: bytes | None) -> None:
        """Looks whether exactly these files lie there, besides the program; None stands for any content."""
        found = {path.name for path in self.tried.folder.iterdir()} - {self.tried.program.name}
        if found != set(files):
            self.tried.is_wrong(f"{what}: the files are {sorted(found)} and not {sorted(files)}")
        for name in found & set(files):
            if files[name] is not None and self.tried.read(name) != files[name]:
                self.tried.is_wrong(f"{what}: {name} holds something else")

    def run(self, words: str, answer: Answer, what: str, files: dict[str, bytes | None], **how) -> None:
        """Runs the program, and looks what it answers and leaves."""
        self.tried.run(words, answer, **how)
        self.holds(f"pcompact {words}: {what}", **files)


def try_good(folder: Folder) -> None:
    """Files that aren't there, and such as are there and are longer or shorter."""
    for words, (line, made) in COMMANDS.items():
        for old in (None, b"", OLD, COMPACTED + OLD):
            folder.lay(heap=BASE, **({} if old is None else dict.fromkeys(made, old)))
            folder.run(words, Answer(0, line), "ends well", {"heap": BASE, **made})


def try_in_place(folder: Folder) -> None:
    for name in ("heap", "./heap"):
        for text, after in ((BASE, COMPACTED), (ROOTED, rooted(MOVED, [10, 0]))):
            folder.lay(heap=text)
            folder.run(f"collect heap {name} --workers 2 --atomic", Answer(0, COLLECTED), "in place", {"heap": after})
        folder.lay(heap=BASE)
        folder.run(f"upgrade {name} heap --atomic", Answer(0, "roots 4\n"), "in place", {"heap": upgraded(BASE)})
        folder.lay(heap=BASE)
        folder.run(f"record heap {name} schedule --workers 1 --atomic", Answer(0, COLLECTED), "in place",
                   {"heap": COMPACTED, "schedule": ONE_WORKER.encode()})
    for text, said in UNSOUND:
        folder.lay(heap=text)
        folder.run("collect heap heap --workers 2 --atomic", fault(said), "in place", {"heap": text})


def try_same(folder: Folder) -> None:
    """Two files to write must not be one, nor a schedule the image."""
    for names in ("heap out out", "heap out ./out", "heap new new", "heap new ./new", "heap ./new aside/../new",
                  "heap out heap", "heap out ./heap", "heap heap heap", "heap heap ./heap", "heap out hard"):
        folder.lay(heap=BASE, out=OLD)
        (folder.tried.folder / "aside").mkdir()
        (folder.tried.folder / "hard").hardlink_to(folder.tried.folder / "heap")
        tried_files = {"heap": BASE, "hard": BASE, "out": OLD}
        folder.tried.run(f"record {names} --workers 1 --atomic", SAME)
        (folder.tried.folder / "aside").rmdir()
        folder.holds(f"record {names}", **tried_files)


def try_faults(folder: Folder) -> None:
    """What stood there stands after each kind of fault."""
    def lay(heap: bytes = BASE) -> dict[str, bytes]:
        old = {"heap": heap, "out": OLD, "schedule": OLD[:100]}
        folder.lay(**old)
        return old

    for words in COMMANDS:
        for text, said in UNSOUND:
            folder.run(words, fault(said), said, lay(text))
        nothing = words.replace("heap", "nothing")
        folder.run(nothing, fault(FAULT_13), "no image", lay())
        for spoiled in (words.replace(" out", " nothing/out"), words.replace("schedule", "heap/schedule"),
                        words.replace("heap", ".")):
            if spoiled != words:
                folder.run(spoiled, fault(FAULT_13), "a file can't be opened", lay())
        folder.run(f"{words} more", usage("error: unexpected argument 'more' found\n"), "usage", lay())
        with FULL.open("wb") as full:
            folder.run(words, fault(FAULT_13), "standard output is full", lay(), stdout=full)
        folder.run(words, fault(FAULT_13), "files are limited", lay(), preexec_fn=limit, by=launcher())
        for workers in ("0", "65"):
            head, option, tail = words.partition("--workers ")
            if option:
                folder.run(f"{head}{option}{workers}{tail[1:]}", outside(workers), "workers", lay())


def try_imports(folder: Folder) -> None:
    """The same of an image that is made of a dump."""
    line = f"{IMPORTED.line}\n"
    for out in ({}, {"out": b""}, {"out": OLD}, {"out": IMPORTED.image + OLD}):
        folder.lay(heap=DUMP, **out)
        folder.run(IMPORT, Answer(0, line), "ends well", {"heap": DUMP, "out": IMPORTED.image})
    for name in ("heap", "./heap"):
        folder.lay(heap=DUMP)
        folder.run(IMPORT.replace("out", name), Answer(0, line), "in place", {"heap": IMPORTED.image})
    for heap, words, answer, how in ((DUMP[:-1], IMPORT, refused(CUT), {}),
                                     (DUMP, IMPORT.replace("heap", "nothing"), fault(FAULT_13), {}),
                                     (DUMP, IMPORT.replace("heap", "."), IRREGULAR, {}),
                                     (DUMP, IMPORT.replace("out", "nothing/out"), fault(FAULT_13), {}),
                                     (DUMP, IMPORT.replace("out", "."), IRREGULAR, {}),
                                     (DUMP, IMPORT, fault(FAULT_13), {"preexec_fn": limit, "by": launcher()})):
        for old in ({}, {"out": OLD}):
            folder.lay(heap=heap, **old)
            folder.run(words, answer, "a dump that gives no image", {"heap": heap, **old}, **how)
    folder.lay(heap=DUMP, out=OLD)
    with FULL.open("wb") as full:
        folder.run(IMPORT, fault(FAULT_13), "standard output is full", {"heap": DUMP, "out": OLD}, stdout=full)


def try_generated(folder: Folder) -> None:
    """The same of a heap that follows from a seed."""
    line, made = MADE[GENERATE]
    for out in ({}, {"out": b""}, {"out": OLD}, {"out": made["out"] + OLD}):
        folder.lay(**out)
        folder.run(GENERATE, Answer(0, line), "ends well", made)
    uneven = Answer(2, err="pcompact: 65 words are not a multiple of the 8 words of a region\n")
    for words, answer, how in ((GENERATE.replace("64", "65"), uneven, {}),
                               (GENERATE.replace("out", "nothing/out"), fault(FAULT_13), {}),
                               (GENERATE.replace("out", "."), IRREGULAR, {}),
                               (GENERATE, fault(FAULT_13), {"preexec_fn": limit, "by": launcher()})):
        for old in ({}, {"out": OLD}):
            folder.lay(**old)
            folder.run(words, answer, "no heap", old, **how)
    folder.lay(out=OLD)
    with FULL.open("wb") as full:
        folder.run(GENERATE, fault(FAULT_13), "standard output is full", {"out": OLD}, stdout=full)


def limit() -> None:
    """No file may be longer than a beginning of what is written."""
    resource.setrlimit(resource.RLIMIT_CORE, (0, 0))
    resource.setrlimit(resource.RLIMIT_FSIZE, (100, 100))


def try_irregular(folder: Folder) -> None:
    """What is there and is no regular file is refused, and stays."""
    def refused(name: str) -> None:
        for words in COMMANDS:
            folder.tried.run(words.replace(" out", f" {name}"), IRREGULAR)
        folder.tried.run(f"record heap out {name} --workers 1 --atomic", IRREGULAR)
        folder.tried.run(f"record heap {name} schedule --workers 1 --atomic", IRREGULAR)

    here = folder.tried.folder
    folder.lay(heap=BASE, out=OLD)
    (here / "folder").mkdir()
    os.mkfifo(here / "pipe")
    (here / "astray").symlink_to("nothing")
    (here / "to_folder").symlink_to("folder")
    with socket.socket(socket.AF_UNIX) as listening:
        listening.bind(str(here / "socket"))
        for name in ("folder", "folder/", ".", "pipe", "astray", "to_folder", "socket", "/dev/full", "/dev/null"):
            refused(name)
    if not stat.S_ISFIFO((here / "pipe").lstat().st_mode) or os.readlink(here / "astray") != "nothing":
        folder.tried.is_wrong("a pipe or a link is changed")
    for name in ("folder", "to_folder", "astray", "pipe", "socket"):
        path = here / name
        path.rmdir() if name == "folder" else path.unlink()
    folder.holds("no regular files", heap=BASE, out=OLD)


def try_links(folder: Folder) -> None:
    """A link stays, and the file that it leads to is replaced. A second name of a file keeps the old one."""
    here = folder.tried.folder
    words = "collect heap link --workers 2 --atomic"
    folder.lay(heap=BASE, out=OLD)
    (here / "link").symlink_to("out")
    folder.run(words, Answer(0, COLLECTED), "a link", {"heap": BASE, "out": COMPACTED, "link": COMPACTED})
    if os.readlink(here / "link") != "out":
        folder.tried.is_wrong("a link is replaced")
    folder.lay(heap=BASE)
    (here / "link").symlink_to("heap")
    folder.run(words, Answer(0, COLLECTED), "a link to the image", {"heap": COMPACTED, "link": COMPACTED})
    folder.lay(heap=BASE)
    (here / "link").hardlink_to(here / "heap")
    folder.run(words, Answer(0, COLLECTED), "a second name", {"heap": BASE, "link": COMPACTED})
    folder.lay(heap=BASE)
    (here / "aside").mkdir()
    (here / "aside" / "out").write_bytes(OLD)
    (here / "link").symlink_to("aside/out")
    folder.tried.run(words, Answer(0, COLLECTED))
    if [path.name for path in (here / "aside").iterdir()] != ["out"] or folder.tried.read("aside/out") != COMPACTED:
        folder.tried.is_wrong("a link into another folder: the file there isn't replaced alone")
    (here / "aside" / "out").unlink()


def try_permissions(folder: Folder) -> None:
    """Permissions and owner stay, where the system lets us. A file that may not be written isn't replaced."""
    out = folder.tried.folder / "out"
    words = "collect heap out --workers 2 --atomic"
    for mode in (0o600, 0o640, 0o644, 0o666, 0o755):
        folder.lay(heap=BASE, out=OLD)
        out.chmod(mode)
        if os.geteuid() == 0:
            os.chown(out, 12, 34)
        before = out.stat()
        folder.run(words, Answer(0, COLLECTED), f"mode {mode:o}", {"heap": BASE, "out": COMPACTED})
        after = out.stat()
        if (after.st_mode, after.st_uid, after.st_gid) != (before.st_mode, before.st_uid, before.st_gid):
            folder.tried.is_wrong(f"mode {mode:o} or owner is changed: {after}")
    folder.lay(heap=BASE)
    made = {"heap": BASE, "out": COMPACTED}
    folder.run(words, Answer(0, COLLECTED), "umask", made, preexec_fn=lambda: os.umask(0o027))
    if stat.S_IMODE(out.stat().st_mode) != 0o640:
        folder.tried.is_wrong("a new file's mode doesn't follow the umask")
    folder.lay(heap=BASE, out=OLD)
    out.chmod(0o444)
    here = folder.tried.folder
    who = {"user": "nobody"} if os.geteuid() == 0 else {}
    here.chmod(0o777)
    folder.run(words, fault(FAULT_13), "may not be written", {"heap": BASE, "out": OLD}, **who)
    here.chmod(0o755)


def try_taken(folder: Folder) -> None:
    """Names for new files that are taken are left alone, but for files that killed calls have left: tests/faults/test_killed.py has those."""
    here = folder.tried.folder
    for words, (line, made) in COMMANDS.items():
        taken = {f".pcompact-{number}.tmp": b"another's" for number in range(3)}
        folder.lay(heap=BASE, **taken)
        (here / ".pcompact-3.tmp").mkdir()
        (here / ".pcompact-4.tmp").symlink_to("nothing")
        with contextlib.ExitStack() as locked:
            for name in taken:
                fcntl.flock(locked.enter_context((here / name).open()), fcntl.LOCK_EX)
            folder.tried.run(words, Answer(0, line))
        (here / ".pcompact-3.tmp").rmdir()
        if os.readlink(here / ".pcompact-4.tmp") != "nothing":
            folder.tried.is_wrong("a link that has the name of a new file is changed")
        (here / ".pcompact-4.tmp").unlink()
        folder.holds(f"pcompact {words}: names are taken", heap=BASE, **taken, **made)


def preloaded(folder: Folder, library: pathlib.Path, words: str,
              *chosen: str) -> tuple[subprocess.CompletedProcess, int]:
    """Runs the program with this library before the C library's, and tells how many calls that counted."""
    told = library.with_suffix(".calls")
    run = ["sh", "-c", 'exec "$@" 3>"$0"', told, "env", f"LD_PRELOAD={library}", *chosen, folder.tried.program]
    done = subprocess.run([*run, *words.split()], cwd=folder.tried.folder, timeout=60, stdin=subprocess.DEVNULL,
                          capture_output=True)
    folder.tried.count += 1
    return done, int(told.read_text())


def each(folder: Folder, library: pathlib.Path, name: str, said: str, words: str) -> None:
    """Lets each of the calls that the library counts fail in turn. What stood there stands then."""
    line, made = COMMANDS.get(words) or MADE[words]
    heap = BASE if words in COMMANDS else DUMP
    old = {"heap": heap, **{file: OLD + file.encode() for file in made}}
    folder.lay(**old)
    _, count = preloaded(folder, library, words)
    kinds = {"the right answer": 0, "a fault": 0, "a fault at a renaming": 0}
    elsewhere = 0
    for number in range(1, count + 1):
        folder.lay(**old)
        done, _ = preloaded(folder, library, words, f"{name}={number}")
        answer = (done.returncode, done.stdout.decode(), owed(done.stderr).decode())
        # The line is on standard error where it can't be found out whether a file is standard output.
        elsewhere += answer == (0, "", line)
        if answer in ((0, line, ""), (0, "", line)):
            kind, files = "the right answer", {"heap": heap, **made}
        elif answer == (1, "", f"pcompact: fault {said}\n"):
            kind, files = "a fault", old
        elif answer == (1, line, f"pcompact: fault {FAULT_13}\n"):
            # OUT has taken its place where SCHEDULE can't.
            kinds["a fault at a renaming"] += 1
            kind, files = "a fault at a renaming", old
            if "schedule" in made and kinds[kind] == 2:
                files = old | {"out": made["out"]}
        else:
            folder.tried.is_wrong(f"pcompact {words}: call {number} of {count}: {answer}")
            continue
        kinds[kind] += kind != "a fault at a renaming"
        folder.holds(f"pcompact {words}: call {number} of {count}", **files)
    if elsewhere > LOOKS * len(made):
        folder.tried.is_wrong(f"pcompact {words}: {elsewhere} calls that fail send the line to standard error")
    print(f"{count} calls in turn: {', '.join(f'{kind}: {n}' for kind, n in kinds.items())}: pcompact {words}")


def try_each(folder: Folder) -> None:
    """Each call on files failing, and each allocation refused."""
    with tempfile.TemporaryDirectory() as room:
        for source, name, said in (("fail_device", "FAILED", FAULT_13), ("refuse_allocation", "REFUSED", "11 memory")):
            library = pathlib.Path(room) / f"{source}.so"
            subprocess.run(["cc", "-shared", "-fPIC", "-O2", "-o", library, PRELOAD / f"{source}.c"], check=True)
            library.chmod(0o755)
            for words in (*COMMANDS, *MADE):
                each(folder, library, name, said, words)


def main() -> int:
    with tempfile.TemporaryDirectory() as room:
        tried = Tried(pathlib.Path(sys.argv[1]) if len(sys.argv) > 1 else built(), pathlib.Path(room))
        for group in (try_good, try_in_place, try_same, try_faults, try_imports, try_generated, try_irregular, try_links,
                      try_permissions, try_taken, try_each):
            group(Folder(tried))
        print(f"{max(tried.count - tried.wrong, 0)} passed, {tried.wrong} failed")
        return 1 if tried.wrong else 0


if __name__ == "__main__":
    sys.exit(main())
