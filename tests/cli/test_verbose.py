#!/usr/bin/env python3
"""Runs the built program where something goes wrong, and compares all of standard error: the line that is owed, and
the lines that say more. Each form of such a line in docs/COMMANDS.md stands in a case.

In the end each allocation of some runs is refused in turn: the line that is owed must come, with its status.

usage: tests/cli/test_verbose.py [PROGRAM]      (needs a C compiler)
"""
import dataclasses
import errno
import os
import pathlib
import subprocess
import sys
import tempfile

# Finds the package `tests` from any folder, and writes nothing beside its modules.
sys.dont_write_bytecode = True
sys.path.insert(0, str(pathlib.Path(__file__).resolve().parents[2]))
from tests.cli.test_import import CUT, DUMP, NAME
from tests.models.image import header
from tests.support import dump_writer
from tests.support.cases import BASE, COMPACTED, MOVED, MOVED_LIVE, ONE_WORKER, WORDS, head, image, with_word
from tests.support.program import PRELOAD, Answer, Tried, built

ROOTED, LARGE = b"PCHEAP02", b"PCHEAP03"


def told(owed: str, *more: str, status: int = 1, made: dict[str, bytes | None] | None = None) -> Answer:
    """The line that is owed, and the lines that say more."""
    return Answer(status, err="".join(f"pcompact: {line}\n" for line in (owed, *more)), made=made or {}, is_whole=True)


def io(file: str, call: str, reason: str) -> Answer:
    return told("fault 13 input or output", f"file {file}", f"call {call}", f"reason {reason}")


def try_each(tried: Tried, words: str, answer: Answer) -> None:
    """All lines must come with --verbose and without it, and with --verbose=never the first one alone."""
    tried.run(words, answer)
    tried.run(f"{words} --verbose", answer)
    first = answer.err.splitlines(keepends=True)[0]
    tried.run(f"{words} --verbose=never", dataclasses.replace(answer, err=first))


# The region log, the count, the number of words, and the first condition of fault 4 that holds.
LENGTHS = [
    (3, 0, 0, "the number of words is 0"),
    (3, 0, 12, "the number of words is not a multiple of the words of a region"),
    (3, 0, 4_194_305, "the number of words is not a multiple of the words of a region"),
    (8, 0, 4_194_560, "the number of words is above 4194304"),
    (3, 0, 4_194_312, "the number of words is above 4194304"),
    (3, 0, 131_080, "there are more than 16384 regions"),
    (7, 4_194_305, 4_194_304, "there are more than 16384 regions"),
    (8, 4_194_305, 4_194_304, "there are more live addresses or roots than words"),
    (3, 33, 32, "there are more live addresses or roots than words"),
]
# The same of version 3.
LARGE_LENGTHS = [
    (16, 0, 2 ** 36 + 2 ** 16, "the number of words is above 68719476736"),
    (3, 0, 2 ** 23 + 8, "there are more than 1048576 regions"),
    (15, 0, 2 ** 36, "there are more than 1048576 regions"),
    (3, 33, 32, "there are more live addresses or roots than words"),
    (20, 0, 2 ** 19, "the number of words is not a multiple of the words of a region"),
]


def try_lengths(tried: Tried) -> None:
    """Each cause of fault 4, in each version and of each command."""
    for log, count, words, cause in LARGE_LENGTHS:
        tried.write("image", head(log, count, words, LARGE))
        try_each(tried, "summary image", told("fault 4 length", "file IMAGE image", f"reason {cause}"))
    for log, count, words, cause in LENGTHS:
        for text in (head(log, count, words), head(log, count, words, ROOTED), head(log, count, words) + b"\0" * 300):
            tried.write("image", text)
            try_each(tried, "summary image", told("fault 4 length", "file IMAGE image", f"reason {cause}"))
    cause = f"reason {LENGTHS[-1][3]}"
    of_image = told("fault 4 length", "file IMAGE image", cause)
    tried.write("schedule", ONE_WORKER)
    for words in ("collect image out --workers 1", "record image out made --workers 1", "replay image schedule",
                  "upgrade image out", "collect image out --workers 1 --atomic"):
        try_each(tried, words, of_image)
    try_each(tried, "verify image base", told("fault 4 length", "file BEFORE image", cause))
    try_each(tried, "verify base image", told("fault 4 length", "file AFTER image", cause))


def try_images(tried: Tried) -> None:
    """Faults of an image: the file alone, and in `verify` the one of the two that is faulty."""
    faulty = [(b"", "1 truncated header"), (BASE[:31], "1 truncated header"), (b"X" * 32, "2 magic"),
              (head(2, 0), "3 region log"), (BASE[:319], "5 truncated body"), (BASE + b"\0", "10 trailing bytes"),
              (image(WORDS, [0, 5, 5, 20]), "6 live order at index 2"),
              (image(with_word(WORDS, 5, 0), [0, 5, 12, 20]), "7 header at 5"),
              (image(with_word(WORDS, 0, header(6, 2)), [0, 5, 12, 20]), "8 overlap at 5"),
              (image(with_word(WORDS, 6, 9), [0, 5, 12, 20]), "9 reference at 5 field 0")]
    for text, owed in faulty:
        hint = [] if text else ["hint it is empty"]
        tried.write("image", text)
        tried.write("of two", text)
        try_each(tried, "summary image", told(f"fault {owed}", "file IMAGE image", *hint))
        tried.run(["verify", "of two", "base", "--verbose"], told(f"fault {owed}", "file BEFORE of two", *hint))
        tried.run(["verify", "base", "of two", "--verbose"], told(f"fault {owed}", "file AFTER of two", *hint))
        # The first of two faulty images is reported.
        tried.run(["verify", "image", "of two", "--verbose"], told(f"fault {owed}", "file BEFORE image", *hint))


def try_hints(tried: Tried) -> None:
    """Files of another kind than what is wanted."""
    dump, text, packed, schedule = DUMP, "heap version 1\n" + "x" * 20, b"\x1f\x8b" + b"\0" * 40, "schedule 1 1\n" + "x" * 20
    for content, hint in ((dump, "it is a heap dump, pcompact import makes an image of it"),
                          (text, "it is a heap text, pcompact assemble makes an image of it"),
                          (packed, "it is packed by gzip, gunzip unpacks it"), (schedule, "it is a schedule")):
        tried.write("image", content)
        try_each(tried, "summary image", told("fault 2 magic", "file IMAGE image", f"hint {hint}"))
    try_each(tried, "replay base base", told("same file", "file IMAGE base", "file SCHEDULE base", status=2))
    tried.write("image", BASE)
    try_each(tried, "replay base image", told("fault 14 schedule line 1", "file SCHEDULE image",
                                              "reason the line is malformed", "hint it is a heap image"))
    tried.write("image", packed)
    try_each(tried, "import image out", told(NAME, "file DUMP image", "hint gunzip -c image | pcompact import - out"))
    for name, shown in (("a b", "'a b'"), ("it's", "'it'\\''s'")):
        tried.write(name, packed)
        tried.run(["import", name, "out"], told(NAME, f"file DUMP {name}", f"hint gunzip -c {shown} | pcompact import - out"))
    tried.write("dump", dump)
    try_each(tried, "compare image dump", told(NAME, "file BEFORE image", "hint gunzip -c image | pcompact compare - dump"))
    try_each(tried, "compare dump image", told(NAME, "file AFTER image", "hint gunzip -c image | pcompact compare dump -"))
    tried.run(["compare", "-", "image"], told(NAME, "file AFTER image", "hint it is packed by gzip, gunzip unpacks it"), input=dump)
    for content, hint in ((b"JAVA PROFILE 1.0.3\0" + bytes(40),
                           "it is a heap dump of Android, hprof-conv of its tools makes one of version 1.0.2 of it"),
                          (b"\x89PNG\r\n\x1a\n" + bytes(40), "it is a picture (PNG)")):
        tried.write("image", content)
        try_each(tried, "import image out", told(NAME, "file DUMP image", f"hint {hint}"))


def try_missing(tried: Tried) -> None:
    """Files that are missing, that are folders, or that can't be read for another reason."""
    (tried.folder / "folder").mkdir()
    tried.write("schedule", ONE_WORKER)
    missing = "no such file or folder"
    for file, call, reason in (("nothing", "open", missing), ("nothing/image", "open", missing),
                               ("folder", "read", "a folder"), ("/proc/self/mem", "read", "an error of the device"),
                               ("base/image", "open", "a file where a folder is wanted")):
        for words in (f"summary {file}", f"replay {file} schedule"):
            try_each(tried, words, io(f"IMAGE {file}", call, reason))
        try_each(tried, f"replay base {file}", io(f"SCHEDULE {file}", call, reason))
        try_each(tried, f"verify {file} base", io(f"BEFORE {file}", call, reason))
        try_each(tried, f"verify base {file}", io(f"AFTER {file}", call, reason))
    for words in ("collect nothing out --workers 1", "record nothing out made --workers 1", "upgrade nothing out"):
        try_each(tried, words, io("IMAGE nothing", "open", missing))
        try_each(tried, f"{words} --atomic", io("IMAGE nothing", "open", missing))
    for file, reason in (("folder", "a folder"), ("nothing/out", missing)):
        for words in (f"collect base {file} --workers 1", f"record base {file} made --workers 1", f"upgrade base {file}"):
            try_each(tried, words, io(f"OUT {file}", "open", reason))
        try_each(tried, f"record base out {file} --workers 1", io(f"SCHEDULE {file}", "open", reason))
    try_each(tried, "collect base nothing/out --workers 1 --atomic", io("OUT nothing/out", "make", missing))


def try_not_permitted(tried: Tried) -> None:
    """Files that the user may not read or write."""
    tried.write("secret", BASE)
    (tried.folder / "secret").chmod(0)
    who = {"user": "nobody"} if os.geteuid() == 0 else {}
    tried.run("summary secret --verbose", io("IMAGE secret", "open", "not permitted"), **who)
    tried.run("verify base secret --verbose", io("AFTER secret", "open", "not permitted"), **who)
    tried.run("upgrade base secret --verbose", io("OUT secret", "open", "not permitted"), **who)
    tried.run("upgrade base secret --atomic --verbose", io("OUT secret", "open", "not permitted"), **who)
    tried.run("upgrade base new --verbose", io("OUT new", "open", "not permitted"), **who)
    tried.run("upgrade base new --atomic --verbose", io("OUT new", "make", "not permitted"), **who)
    (tried.folder / "secret").chmod(0o600)


def try_full(tried: Tried) -> None:
    """Devices without space, standard output among them."""
    no_space = ("write", "no space")
    for words in ("collect base /dev/full --workers 2", "record base /dev/full made --workers 1", "upgrade base /dev/full"):
        try_each(tried, words, io("OUT /dev/full", *no_space))
    try_each(tried, "record base out /dev/full --workers 1", io("SCHEDULE /dev/full", *no_space))
    output = told("fault 13 input or output", "standard output", "call write", "reason no space")
    with open("/dev/full", "wb") as full:
        for words in ("summary base", "collect base out --workers 2 --atomic", "verify base compacted"):
            tried.run(f"{words} --verbose", output, stdout=full)


def try_schedules(tried: Tried) -> None:
    """Lines that are malformed, not allowed, or have another reply, which is reported."""
    malformed = ("reason the line is malformed",)
    not_allowed = ("reason the event is not allowed",)
    schedules = [
        ("", 1, malformed), ("schedule 1 65\n", 1, malformed), ("schedule 1 1", 1, malformed),
        ("schedule 1 1\n0 claim 1 yes\n0 poll\n", 3, malformed), ("schedule 1 1\n1 poll ?\n", 2, malformed),
        ("schedule 1 2\n0 claim 4 ?\n", 2, not_allowed), ("schedule 1 2\n0 settle 0 more\n", 2, not_allowed),
        ("schedule 1 1\n0 claim 0 yes\n0 copy 0 9 ok\n", 3, not_allowed),
        ("schedule 1 1\n0 claim 0 yes\n0 drain 0 1 last\n", 3, not_allowed),
        ("schedule 1 2\n0 claim 0 yes\n0 drain 0 1 ?\n", 3, not_allowed),
        ("schedule 1 1\n0 claim 4294967295 ?\n0 poll all\n", 2, not_allowed), ("schedule 1 1\n0 claim 4294967296 ?\n", 2, malformed),
        ("schedule 1 2\n0 claim 0 yes\n0 claim 1 yes\n", 3, ("reason the reply is another", "reply no")),
        ("schedule 1 2\n0 claim 0 yes\n1 claim 0 yes\n", 3, ("reason the reply is another", "reply no")),
        ("schedule 1 2\n0 claim 3 no\n1 poll all\n", 3, ("reason the reply is another", "reply more")),
    ]
    replies = [("0 claim 1 yes", "no"), ("0 claim 0 no", "yes"), ("0 look 1 open2", "open1"), ("0 look 3 out0", "out2"),
               ("0 poll all", "more")]
    for line, reply in replies:
        schedules.append((f"schedule 1 1\n{line}\n", 2, ("reason the reply is another", f"reply {reply}")))
    settled = ONE_WORKER.replace("0 settle 2 all", "0 settle 2 more")
    schedules.append((settled, 20, ("reason the reply is another", "reply all")))
    for text, number, more in schedules:
        tried.write("schedule", text)
        owed = f"fault 14 schedule line {number}"
        hint = [] if text else ["hint it is empty"]
        try_each(tried, "replay base schedule", told(owed, "file SCHEDULE schedule", *more, *hint))


def try_verdicts(tried: Tried) -> None:
    for text, owed in ((BASE, "word 1"), (image(MOVED, MOVED_LIVE, allowance=2), "shape")):
        tried.write("after", text)
        try_each(tried, "verify base after", told(f"differs {owed}", "file AFTER after"))


def try_refused_files(tried: Tried) -> None:
    """One file under two words, and what can't be replaced."""
    tried.write("schedule", ONE_WORKER)
    (tried.folder / "link").symlink_to("base")
    pairs = [("collect base base --workers 1", "IMAGE base", "OUT base"),
             ("collect base ./base --workers 1", "IMAGE base", "OUT ./base"),
             ("upgrade link base", "IMAGE link", "OUT base"),
             ("record base out base --workers 1", "IMAGE base", "SCHEDULE base"),
             ("record base out link --workers 1", "IMAGE base", "SCHEDULE link"),
             ("record base made ./made --workers 1", "OUT made", "SCHEDULE ./made"),
             ("record base link schedule --workers 1", "IMAGE base", "OUT link"),
             ("replay base link", "IMAGE base", "SCHEDULE link")]
    for words, one, other in pairs:
        try_each(tried, words, told("same file", f"file {one}", f"file {other}", status=2))
    for words in ("collect base folder --workers 1 --atomic", "upgrade base folder --atomic"):
        try_each(tried, words, told("not a regular file", "file OUT folder", status=2))
    try_each(tried, "record base out folder --workers 1 --atomic",
             told("not a regular file", "file SCHEDULE folder", status=2))
    if tried.read("base") != BASE:
        tried.is_wrong("an image that was named twice is changed")


def try_dumps(tried: Tried) -> None:
    """What `import` says of dumps: the file, where there is something wrong with it."""
    tried.write("dump", DUMP)
    tried.write("cut", DUMP[:-1])
    short = "hint it is cut short, as by a full disk, or it is still being written"
    for words, said in (("import cut out", CUT), ("import cut out --atomic --live-only", CUT)):
        try_each(tried, words, told(said, f"file DUMP {words.split()[1]}", short))
    # Another text that is shorter than the head of a dump isn't one that is cut.
    tried.write("cut", "JAVA")
    try_each(tried, "import cut out", told("byte 4: the dump ends here, inside a record", "file DUMP cut"))
    try_each(tried, "import base out", told(NAME, "file DUMP base", "hint it is a heap image"))
    to = dump_writer.Writer()
    array = to.primitives(8, 11, [0] * 200_000) + to.references(4_000_000, [])
    many = "the heap has 200002 words, and 131072 are the most"
    for root, live, hint in ((4_000_000, 1, "it has 1.5 MiB, 1.0 MiB are the most, and with --live-only it has 0.0 MiB"),
                             (8, 200_001, "its live objects have 1.5 MiB, and 1.0 MiB are the most")):
        tried.write("large", dump_writer.Writer().record(0x0C, array + to.root(0x05, root)).text())
        try_each(tried, "import large out --region-log 3 --version 2",
                 told(f"{many}; with --live-only it has {live}", "file DUMP large", f"hint {hint}"))
    missing = "no such file or folder"
    for words in ("import nothing out", "import nothing out --atomic"):
        try_each(tried, words, io("DUMP nothing", "open", missing))
    try_each(tried, "import /proc/self/mem out", io("DUMP /proc/self/mem", "read", "an error of the device"))
    try_each(tried, "import dump folder", io("IMAGE folder", "open", "a folder"))
    try_each(tried, "import dump nothing/out", io("IMAGE nothing/out", "open", missing))
    try_each(tried, "import dump nothing/out --atomic", io("IMAGE nothing/out", "make", missing))
    try_each(tried, "import dump /dev/full", io("IMAGE /dev/full", "write", "no space"))
    try_each(tried, "import dump ./dump", told("same file", "file DUMP dump", "file IMAGE ./dump", status=2))
    try_each(tried, "import folder out", told("not a regular file", "file DUMP folder", status=2))
    try_each(tried, "import dump folder --atomic", told("not a regular file", "file IMAGE folder", status=2))


def try_generated(tried: Tried) -> None:
    """What `generate` says of the file for its image. Of a wish that no image has there is no more to tell."""
    wish = "--words 64 --live 50 --region-log 3 --seed 1"
    missing = "no such file or folder"
    try_each(tried, f"generate folder {wish}", io("IMAGE folder", "open", "a folder"))
    try_each(tried, f"generate nothing/out {wish}", io("IMAGE nothing/out", "open", missing))
    try_each(tried, f"generate nothing/out {wish} --atomic", io("IMAGE nothing/out", "make", missing))
    try_each(tried, f"generate /dev/full {wish}", io("IMAGE /dev/full", "write", "no space"))
    try_each(tried, f"generate folder {wish} --atomic", told("not a regular file", "file IMAGE folder", status=2))
    try_each(tried, f"generate out {wish.replace('64', '65')}",
             told("65 words are not a multiple of the 8 words of a region", status=2))


# What writes a file `kept`, and the word for that file.
WRITING = {"collect base kept --workers 1": "OUT", "upgrade base kept": "OUT", "record base kept made --workers 1": "OUT",
           "import dump kept --region-log 3": "IMAGE", "assemble text kept": "IMAGE", "map base --svg kept": "FILE",
           "generate kept --words 64 --live 50 --region-log 3 --seed 1": "IMAGE"}


def prepare_writing(tried: Tried) -> None:
    tried.write("dump", DUMP)
    tried.write("text", subprocess.run([tried.program, "text", "base"], cwd=tried.folder, capture_output=True).stdout)
    subprocess.run(["cc", "-shared", "-fPIC", "-O2", "-o", tried.folder / "stranger.so", PRELOAD / "stranger.c"],
                   check=True)


def failing(tried: Tried, call: str, words: str, error: int = errno.EIO) -> str:
    """What the program says at length on words, where this call of the system fails each time with this error."""
    run = ["sh", "-c", 'exec "$@" 3>/dev/null', "sh", "env", f"FAILS={call}", f"ERROR={error}",
           f"LD_PRELOAD={tried.folder / 'stranger.so'}"]
    done = subprocess.run([*run, tried.program, *words.split(), "--verbose"], cwd=tried.folder, capture_output=True, text=True)
    return done.stderr


def try_calls(tried: Tried) -> None:
    """Each call on a file that is written failing, and on one of which the system doesn't tell. With --atomic what stood
    there stands then. No new file is left."""
    failed = "an error of the device"
    calls = {"sync": ("sync", failed), "mode": ("access", failed), "rename": ("rename", failed), "empty": ("empty", failed),
             "none": ("write", "no byte was taken")}
    prepare_writing(tried)
    before = {path.name for path in tried.folder.iterdir()} | {"made", "kept"}
    rows = [(words + (" --atomic" if call != "empty" else ""), call, io(f"{role} kept", *told))
            for words, role in WRITING.items() for call, told in calls.items()]
    rows += [("collect base kept --workers 1", "stat", io("IMAGE base", "stat", failed)),
             ("generate kept --words 64 --live 50 --region-log 3 --seed 1", "stat", io("IMAGE kept", "stat", failed)),
             ("generate kept --words 64 --live 50 --region-log 3 --seed 1 --atomic", "stat", io("IMAGE kept", "stat", failed))]
    for words, call, answer in rows:
        tried.write("kept", b"what stood there")
        tried.count += 1
        said = failing(tried, call, words)
        left = {path.name for path in tried.folder.iterdir()} - before
        if said != answer.err or left or (words.endswith("--atomic") and tried.read("kept") != b"what stood there"):
            tried.is_wrong(f"pcompact {words}, {call} fails: {said!r}; {left} is left, or what stood there is gone")


def try_no_space(tried: Tried) -> None:
    """A device that is full, and a user who has no more of it."""
    prepare_writing(tried)
    for words, role in WRITING.items():
        for option, call in (("", "write"), (" --atomic", "write"), (" --atomic", "sync")):
            for error in (errno.ENOSPC, errno.EDQUOT):
                tried.count += 1
                said = failing(tried, call, words + option, error)
                if said != io(f"{role} kept", call, "no space").err:
                    tried.is_wrong(f"pcompact {words}{option}, {call} fails by {errno.errorcode[error]}: {said!r}")


# Errors of the system, and the words for them.
ERRORS = {errno.ENXIO: "no such device", errno.EBADF: "not open", errno.ENOMEM: "the system has no memory",
          errno.EBUSY: "the file is in use", errno.EXDEV: "another file system", errno.ENODEV: "no such device",
          errno.EINVAL: "not possible with such a file", errno.ENFILE: "too many files are open in the system",
          errno.EMFILE: "too many files are open", errno.ETXTBSY: "a program that runs", errno.EFBIG: "file too large",
          errno.ESPIPE: "not possible with a pipe", errno.EROFS: "a read-only file system",
          errno.ENAMETOOLONG: "the name is too long", errno.ENOLCK: "no more locks", errno.ENOSYS: "not supported by the system",
          errno.ELOOP: "too many links", errno.EOVERFLOW: "file too large for the system",
          errno.ETIMEDOUT: "no answer in time", errno.EOPNOTSUPP: "not supported by the system",
          errno.ESTALE: "the server has lost the file", errno.EPROTO: f"other, error {errno.EPROTO} of the system"}


def try_errors(tried: Tried) -> None:
    """Each error that has words, and one that has none."""
    prepare_writing(tried)
    for error, reason in ERRORS.items():
        tried.count += 1
        said = failing(tried, "sync", "upgrade base kept --atomic", error)
        if said != io("OUT kept", "sync", reason).err:
            tried.is_wrong(f"pcompact upgrade base kept --atomic, sync fails by {errno.errorcode[error]}: {said!r}")
    tried.run(f"summary {'n' * 300}", io(f"IMAGE {'n' * 300}", "open", ERRORS[errno.ENAMETOOLONG]))


def try_refused_memory(tried: Tried, words: str) -> None:
    """Refuses each allocation in turn. The owed line must come, or fault 11 in its place."""
    shim = tried.folder / "refuse.so"
    subprocess.run(["cc", "-shared", "-fPIC", "-O2", "-o", shim, PRELOAD / "refuse_allocation.c"], check=True)
    owed = None
    number, asked = 0, 0
    while number <= asked:
        said = tried.folder / "asked"
        with said.open("wb") as counted:
            done = subprocess.run(
                ["sh", "-c", 'exec "$@" 3>asked', "sh", "env", f"REFUSED={number}", f"LD_PRELOAD={shim}",
                 tried.program, *words.split(), "--verbose"],
                cwd=tried.folder, capture_output=True, check=False)
        asked = int(said.read_text())
        lines = done.stderr.decode().splitlines()
        owed = owed or lines
        tried.count += 1
        is_cut = lines[:1] == owed[:1] and set(lines) <= set(owed)
        if done.returncode != 1 or done.stdout or not (is_cut or lines == ["pcompact: fault 11 memory"]):
            tried.is_wrong(f"pcompact {words} --verbose, allocation {number} refused: {done.stderr!r}")
        number += 1


def main() -> int:
    with tempfile.TemporaryDirectory() as folder:
        tried = Tried(pathlib.Path(sys.argv[1]) if len(sys.argv) > 1 else built(), pathlib.Path(folder))
        tried.write("base", BASE)
        tried.write("compacted", COMPACTED)
        for group in (try_lengths, try_images, try_hints, try_missing, try_not_permitted, try_full, try_schedules,
                      try_verdicts, try_refused_files, try_dumps, try_generated, try_calls, try_no_space, try_errors):
            group(tried)
        tried.write("schedule", "schedule 1 1\n0 look 1 open2\n")
        for words in ("replay base schedule", "summary nothing", "verify base base", "import cut out"):
            try_refused_memory(tried, words)
        print(f"{tried.count - tried.wrong} passed, {tried.wrong} failed")
        return 1 if tried.wrong else 0


if __name__ == "__main__":
    sys.exit(main())
