#!/usr/bin/env python3
"""Runs the built program where callers, names and folders are hostile.

A stranger who may write in OUT's folder swaps the new file for a link; OUT, SCHEDULE or FILE is standard output, as a file, a
pipe and a file at whose end is written; the size of files is limited; names break lines; OUT and SCHEDULE have the names of
new files; another file takes the name of what a killed call left; files can't be locked; another process writes OUT meanwhile;
a dump changes between its two readings; two files of two devices have one number. What the program does with new files is
reported by a library that is loaded before the C library's. Ends with status 1 where something is another way.

usage: tests/faults/test_hostile.py [PROGRAM]      (needs a C compiler; a part needs root and unshare)
"""
import errno
import os
import pathlib
import resource
import stat
import subprocess
import sys
import tempfile

# Finds the package `tests` from any folder, and writes nothing beside its modules.
sys.dont_write_bytecode = True
sys.path.insert(0, str(pathlib.Path(__file__).resolve().parents[2]))
from tests.cli.test_import import DUMP
from tests.models.dump import make
from tests.models.image import FRONT, header
from tests.support import dump_writer
from tests.support.cases import BASE, COLLECTED, COMPACTED, ONE_WORKER, WORDS, image, upgraded, with_word
from tests.support.program import PRELOAD, Answer, Tried, built, fault, launcher, usage, without_details

FAULT_13 = fault("13 input or output")
OLD = b"what stood there before" * 40
OWNER, GROUP = 12, 34
# Characters beyond ASCII that move the cursor, break a line, or turn the direction of a text or hide in it.
UNPRINTABLE = "\u0080\u0085\u009b\u00ad\u200b\u2028\u202e\u2066\ufeff"
COLLECT = "collect heap out --workers 1 --atomic"
RECORD = "record heap out schedule --workers 1 --atomic"
MADE = {
    "collect heap OUT --workers 1": (COMPACTED, COLLECTED),
    "upgrade heap OUT": (upgraded(BASE), "roots 4\n"),
    "record heap OUT schedule --workers 1": (COMPACTED, COLLECTED),
    "record heap other OUT --workers 1": (ONE_WORKER.encode(), COLLECTED),
    "import dump OUT --region-log 3": (make(DUMP, 3).image, f"{make(DUMP, 3).line}\n"),
}


class Hostile:
    """A folder in which the program runs, with a library that tells what it does."""

    def __init__(self, tried: Tried, library: pathlib.Path):
        self.tried = tried
        self.here = tried.folder
        self.library = library
        self.skipped = 0

    def lay(self, **files: bytes) -> None:
        """Makes these the files of the folder, and nothing else but the program."""
        for path in self.here.iterdir():
            if path != self.tried.program:
                path.rmdir() if path.is_dir() and not path.is_symlink() else path.unlink()
        for name, content in files.items():
            self.tried.write(name, content)

    def watch(self, words: str, **how: str) -> tuple[subprocess.CompletedProcess, list[str]]:
        """Runs the program, and tells what it did with the files that it made."""
        told = self.library.with_suffix(".told")
        run = ["sh", "-c", 'exec "$@" 3>"$0"', told, "env", f"LD_PRELOAD={self.library}",
               *(f"{name}={value}" for name, value in how.items()), self.tried.program, *words.split()]
        done = subprocess.run(run, cwd=self.here, timeout=60, stdin=subprocess.DEVNULL, capture_output=True, text=True,
                              umask=0o022)
        return done, told.read_text().splitlines()

    def expect(self, is_right: bool, what: str) -> None:
        self.tried.count += 1
        if not is_right:
            self.tried.is_wrong(what)

    def holds(self, what: str, **files: bytes) -> None:
        found = {path.name: path.read_bytes() for path in self.here.iterdir()
                 if path != self.tried.program and path.is_file()}
        self.expect(found == files, f"{what}: the files are {sorted(found)} or have another content")

    def skip(self, what: str) -> None:
        self.skipped += 1
        print(f"skipped: {what}")


def give_out(it: Hostile, *names: str) -> None:
    """Files that belong to somebody else, where this process may give them away."""
    for name in names:
        (it.here / name).chmod(0o644)
        if os.geteuid() == 0:
            os.chown(it.here / name, OWNER, GROUP)


def try_steps(it: Hostile) -> None:
    """Which steps a new file goes through, and in which order: only its owner may read it while it is written, it gets its
    owner, its group and its permissions, is brought onto the disk, and takes its place once all is printed."""
    ended = ["owner", "group", "mode 644", "sync"]
    steps = {
        (COLLECT, ("out",)): ["make 600", *ended, "print", "rename"],
        (COLLECT, ()): ["make 644", "sync", "print", "rename"],
        (RECORD, ("out", "schedule")): ["make 600", "make 600", *ended, *ended, "print", "rename", "rename"],
        ("upgrade heap out --atomic", ("out",)): ["make 600", *ended, "print", "rename"],
        ("import dump out --region-log 3 --atomic", ("out",)): ["make 600", *ended, "print", "rename"],
    }
    for (words, old), wanted in steps.items():
        it.lay(heap=BASE, dump=DUMP, **dict.fromkeys(old, OLD))
        give_out(it, *old)
        done, told = it.watch(words)
        it.expect(done.returncode == 0 and told == wanted, f"pcompact {words}: {done} goes by {told} and not by {wanted}")


def try_swapped(it: Hostile) -> None:
    """A stranger swaps the new file for a link: what the link leads to keeps its owner, its permissions and its bytes."""
    secret = it.here / "secret"
    for words, old in ((COLLECT, ("out",)), (RECORD, ("out", "schedule")), (COLLECT, ())):
        it.lay(heap=BASE, secret=b"secret", **dict.fromkeys(old, OLD))
        secret.chmod(0o600)
        give_out(it, *old)
        before = secret.stat()
        _, told = it.watch(words, SWAPPED="secret")
        after = secret.stat()
        is_kept = (before.st_mode, before.st_uid, before.st_gid) == (after.st_mode, after.st_uid, after.st_gid)
        it.expect(is_kept and it.tried.read("secret") == b"secret" and "not swapped" not in told,
                  f"pcompact {words}: what a stranger's link leads to is changed: {after}")


def try_private(it: Hostile) -> None:
    """What is made of a file that only its owner may read is for its owner alone."""
    wanted = {0o600: 0o600, 0o400: 0o600, 0o640: 0o644, 0o644: 0o644}
    for words in (*MADE, "map heap --svg OUT"):
        for atomic in ("", " --atomic"):
            for mode, made in wanted.items():
                it.lay(heap=BASE, dump=DUMP)
                for name in ("heap", "dump"):
                    (it.here / name).chmod(mode)
                done = subprocess.run([it.tried.program, *words.replace("OUT", "out").split(), *atomic.split()], cwd=it.here,
                                      capture_output=True, umask=0o022)
                found = stat.S_IMODE((it.here / "out").stat().st_mode)
                it.expect(done.returncode == 0 and found == made,
                          f"pcompact {words}{atomic} of a file of mode {mode:o} makes one of mode {found:o}: {done}")


def printed_to(it: Hostile, words: str, opened: str) -> tuple[int, bytes, str]:
    """Runs the program with standard output opened so. The status, what stands there, and standard error."""
    out = it.here / "shown"
    out.write_bytes(b"before\n" if opened == "ab" else b"")
    with out.open(opened) as shown:
        if opened == "r+b":
            os.write(shown.fileno(), b"before\n")
        done = subprocess.run([it.tried.program, *words.split()], cwd=it.here, stdout=shown, stderr=subprocess.PIPE)
        if opened != "wb":
            os.write(shown.fileno(), b"after\n")
    return done.returncode, out.read_bytes(), done.stderr.decode()


def try_standard_output(it: Hostile) -> None:
    """A file that is standard output has exactly its bytes, and what is printed goes to standard error."""
    for words, (made, line) in MADE.items():
        for name in ("/dev/stdout", "/proc/self/fd/1", "/dev/fd/1", "shown"):
            it.lay(heap=BASE, dump=DUMP)
            named = words.replace("OUT", name)
            it.expect(printed_to(it, named, "wb") == (0, made, line), f"pcompact {named} >shown")
            for opened in ("ab", "r+b"):
                it.expect(printed_to(it, named, opened) == (0, b"before\n" + made + b"after\n", line),
                          f"pcompact {named}, between other words, opened {opened}")
            if name != "shown":
                done = subprocess.run([it.tried.program, *named.split()], cwd=it.here, capture_output=True)
                it.expect((done.returncode, done.stdout, done.stderr.decode()) == (0, made, line), f"pcompact {named} | ..")
    for words in ("map heap --svg OUT", "timeline heap schedule --svg OUT", "timeline heap schedule --html OUT"):
        it.lay(heap=BASE, schedule=ONE_WORKER.encode())
        done = subprocess.run([it.tried.program, *words.replace("OUT", "out").split()], cwd=it.here, capture_output=True)
        made, line = it.tried.read("out"), done.stdout.decode()
        for name in ("/dev/stdout", "shown"):
            named = words.replace("OUT", name)
            it.expect(printed_to(it, named, "r+b") == (0, b"before\n" + made + b"after\n", line), f"pcompact {named}")
    # With --atomic the file of standard output is replaced, and what is printed isn't lost with the old one.
    it.lay(heap=BASE)
    it.expect(printed_to(it, "collect heap shown --workers 1 --atomic", "wb") == (0, COMPACTED, COLLECTED), "--atomic >shown")
    # What is only read stays apart from what is printed.
    it.lay(heap=BASE)
    it.expect(printed_to(it, "collect heap out --workers 1", "wb") == (0, COLLECTED.encode(), ""), "collect heap out >shown")


def limit() -> None:
    """No file may be longer than a beginning of what is written."""
    resource.setrlimit(resource.RLIMIT_CORE, (0, 0))
    resource.setrlimit(resource.RLIMIT_FSIZE, (100, 100))


def try_limited(it: Hostile) -> None:
    """Beyond a limit on the size of files a write fails and nothing is left, where the launcher or the installed script runs
    the program. Alone it ends by the signal: what stood there stands."""
    laid = {"heap": BASE, "dump": DUMP, "out": OLD, "schedule": OLD}
    for words in (COLLECT, RECORD, "upgrade heap out --atomic", "import dump out --region-log 3 --atomic"):
        it.lay(**laid)
        it.tried.run(words, FAULT_13, preexec_fn=limit, by=launcher())
        it.holds(f"pcompact {words}, limited", **laid)
        done = subprocess.run([it.tried.program, *words.split()], cwd=it.here, capture_output=True, preexec_fn=limit)
        it.expect(done.returncode != 0 and (it.tried.read("out"), it.tried.read("schedule")) == (OLD, OLD),
                  f"the program alone, limited: {done}")


def try_names(it: Hostile) -> None:
    """Names that aren't printable are shown by escapes, each on one line."""
    name = "x\npcompact: fault 4 length\npcompact: reason the number of words is 0\x1b[31m\x7f\u202e\u2028\\'\"\u00e9"
    shown = ("x\\npcompact: fault 4 length\\npcompact: reason the number of words is 0\\x1b[31m\\x7f\\u{202e}\\u{2028}"
             "\\\\'\"\u00e9")
    missing = "pcompact: fault 13 input or output\npcompact: file IMAGE {}\npcompact: call open\n" \
              "pcompact: reason no such file or folder\n"
    it.lay(heap=BASE)
    it.tried.run(["summary", name, "--verbose"], Answer(1, err=missing.format(shown)))
    it.tried.run(["collect", "heap", f"{name}/out", "--workers", "1", "--atomic", "--verbose"],
                 Answer(1, err=missing.format(f"{shown}/out").replace("IMAGE", "OUT").replace("call open", "call make")))
    it.tried.run(["replay", name, name, "--verbose"],
                 Answer(2, err=f"pcompact: same file\npcompact: file IMAGE {shown}\npcompact: file SCHEDULE {shown}\n"))
    for words, told in (([name], f"error: unrecognized subcommand '{shown}'\n"),
                        (["summary", "heap", name], f"error: unexpected argument '{shown}' found\n"),
                        (["collect", "heap", "out", "--workers", name], f"error: invalid value '{shown}' for '--workers"),
                        (["\x1b]0;owned\x07"], "error: unrecognized subcommand '\\x1b]0;owned\\x07'\n")):
        it.tried.run(words, usage(told))
    for character in UNPRINTABLE:
        shown = f"a\\u{{{ord(character):x}}}31m"
        it.tried.run([f"a{character}31m"], usage(f"error: unrecognized subcommand '{shown}'\n"))
        it.tried.run(["summary", "heap", f"a{character}31m"], usage(f"error: unexpected argument '{shown}' found\n"))
    it.tried.run(["no\u00e9 'word' \"at\" all"], usage("error: unrecognized subcommand 'no\u00e9 'word' \"at\" all'\n"))


def try_own_names(it: Hostile) -> None:
    """OUT and SCHEDULE have the names of new files, or none."""
    new = [f".pcompact-{number}.tmp" for number in range(3)]
    for out in ("out", *new):
        for schedule in ("schedule", *new):
            if out == schedule:
                continue
            for old in ({}, {out: OLD}, {schedule: OLD}, {out: OLD, schedule: OLD}):
                it.lay(heap=BASE, **old)
                words = f"record heap {out} {schedule} --workers 1 --atomic"
                it.tried.run(words, Answer(0, COLLECTED))
                it.holds(f"pcompact {words}", heap=BASE, **{out: COMPACTED, schedule: ONE_WORKER.encode()})
                it.lay(heap=BASE[:-1], **old)
                it.tried.run(words, fault("5 truncated body"))
                it.holds(f"pcompact {words}", heap=BASE[:-1], **old)
    it.lay(heap=BASE, dump=DUMP)
    for words in (["collect", "heap", "", "--workers", "1"], ["upgrade", "heap", ""], ["import", "dump", ""],
                  ["record", "heap", "", "schedule", "--workers", "1"], ["record", "heap", "out", "", "--workers", "1"],
                  ["collect", "heap", "new/", "--workers", "1"], ["generate", "", *"--words 64 --live 50 --region-log 3 --seed 1".split()]):
        for atomic in ([], ["--atomic"]):
            it.tried.run([*words, *atomic], FAULT_13)
            it.holds(f"pcompact {words} {atomic}", heap=BASE, dump=DUMP)


def try_renewed(it: Hostile) -> None:
    """What a killed call left goes, but not another file that has taken its name meanwhile."""
    left = ".pcompact-0.tmp"
    for words, made in ((COLLECT, {"out": COMPACTED}), ("upgrade heap out --atomic", {"out": upgraded(BASE)})):
        it.lay(heap=BASE, **{left: b"left"})
        done, told = it.watch(words, RENEWED=left)
        it.expect(done.returncode == 0 and "not renewed" not in told, f"pcompact {words} beside a renewed file: {done}")
        it.holds(f"pcompact {words} beside a renewed file", heap=BASE, **made, **{left: b""})


def try_no_locks(it: Hostile) -> None:
    """Where files can't be locked all is made as elsewhere, and what a killed call left stays."""
    for words, made in ((COLLECT, {"out": COMPACTED}), (RECORD, {"out": COMPACTED, "schedule": ONE_WORKER.encode()}),
                        ("import dump out --region-log 3 --atomic", {"out": make(DUMP, 3).image})):
        for error in (errno.EOPNOTSUPP, errno.ENOSYS):
            laid = {"heap": BASE, "dump": DUMP, ".pcompact-0.tmp": b"left"}
            for old in ({}, dict.fromkeys(made, OLD)):
                it.lay(**laid, **old)
                done, _ = it.watch(words, FAILS="lock", ERROR=str(error))
                it.expect((done.returncode, done.stderr) == (0, ""), f"pcompact {words} where files can't be locked: {done}")
                it.holds(f"pcompact {words} where files can't be locked", **laid, **made)


def gapped(size: int) -> bytes:
    """An image whose compaction ends with many zeros."""
    words = [0] * 65536
    live = list(range(5, 60005, 20))
    for at in live:
        words[at:at + size] = [header(size, 0)] + [7777] * (size - 1)
    front = FRONT.pack(b"PCHEAP01", 9, len(live), len(words), 0)
    return front + b"".join(word.to_bytes(8, "little") for word in words + live)


def try_meanwhile(it: Hostile) -> None:
    """Another process writes OUT after it was opened: OUT is what the last one wants it to be."""
    it.lay(few=gapped(1), many=gapped(10))
    wanted = {}
    for name in ("few", "many"):
        it.tried.run(f"collect {name} {name}-out --workers 1", Answer(0, None))
        wanted[name] = it.tried.read(f"{name}-out")
    for name, other in (("few", "many"), ("many", "few")):
        for old in (None, b"", OLD):
            (it.here / "out").unlink(missing_ok=True)
            if old is not None:
                it.tried.write("out", old)
            meanwhile = f"env -u LD_PRELOAD -u MEANWHILE ./pcompact collect {other} out --workers 1 >/dev/null 3>&-"
            done, _ = it.watch(f"collect {name} out --workers 1", MEANWHILE=meanwhile)
            it.expect(done.returncode == 0 and it.tried.read("out") == wanted[name],
                      f"OUT is written by two, and isn't what the second one of {name} wrote: {done}")
        meanwhile = "head -c 1000000 /dev/urandom >out"
        done, _ = it.watch(f"upgrade {name} out", MEANWHILE=meanwhile)
        it.expect(done.returncode == 0 and it.tried.read("out") == upgraded_of(it, name), f"upgrade of {name}: {done}")


def upgraded_of(it: Hostile, name: str) -> bytes:
    it.tried.run(f"upgrade {name} {name}-upgraded", Answer(0, None))
    return it.tried.read(f"{name}-upgraded")


def dump_of(references: list[int], lacks: bool = False) -> bytes:
    """A dump with an instance, an array of these references, and an array of bytes, which it may lack."""
    to = dump_writer.Writer()
    heap = to.root(0x05, 312) + to.class_(256, 0, [2, 10], [(2, 312)]) + to.instance(312, 256, [(2, 4472), (10, 0x01020304)])
    heap += to.references(336, references) + (b"" if lacks else to.primitives(4472, 8, list(range(1, 10))))
    return to.record(0x0C, heap).text()


def try_changed_dumps(it: Hostile) -> None:
    """A dump that has another array of references at its second reading, or lacks its last object there."""
    first = dump_of([312, 0, 999])
    for second in (first, dump_of([312, 0]), dump_of([312, 0, 999, 0]), dump_of([312, 0, 999], lacks=True)):
        for live_only in (False, True):
            it.lay(dump=first, second=second)
            words = "import dump out --region-log 3 --allowance 5" + " --live-only" * live_only
            done, _ = it.watch(words, AGAIN="second")
            if second == first:
                made = make(first, 3, 5, live_only)
                it.expect((done.returncode, done.stdout) == (0, f"{made.line}\n"), f"pcompact {words}: {done}")
                it.holds(f"pcompact {words}", dump=first, second=second, out=made.image)
            else:
                said = "pcompact: byte 192: the dump changed while it was read\n"
                it.expect((done.returncode, done.stdout, without_details(done.stderr)) == (1, "", said), f"pcompact {words}, changed: {done}")
                it.holds(f"pcompact {words}, changed", dump=first, second=second)


def try_devices(it: Hostile) -> None:
    """Files of two devices that have one number are two files."""
    if os.geteuid() != 0 or subprocess.run(["unshare", "-m", "true"], capture_output=True).returncode:
        it.skip("files of two devices with one number: needs root, and unshare with leave to mount")
        return
    it.lay(heap=BASE)
    script = """set -e
mkdir one two; mount -t tmpfs none one; mount -t tmpfs none two
cp heap one/heap; echo old >two/out
[ "$(stat -c %i one/heap)" = "$(stat -c %i two/out)" ] || exit 77
./pcompact collect one/heap two/out --workers 1
cmp two/out right"""
    it.tried.write("right", COMPACTED)
    done = subprocess.run(["unshare", "-m", "sh", "-c", script], cwd=it.here, capture_output=True, text=True)
    for name in ("one", "two"):
        (it.here / name).rmdir()
    if done.returncode == 77:
        it.skip("files of two devices with one number: the system gives them two")
    else:
        it.expect((done.returncode, done.stdout) == (0, COLLECTED), f"files of two devices with one number: {done}")


def main() -> int:
    with tempfile.TemporaryDirectory() as room, tempfile.TemporaryDirectory() as aside:
        tried = Tried(pathlib.Path(sys.argv[1]) if len(sys.argv) > 1 else built(), pathlib.Path(room))
        library = pathlib.Path(aside) / "stranger.so"
        subprocess.run(["cc", "-shared", "-fPIC", "-O2", "-o", library, PRELOAD / "stranger.c"], check=True)
        it = Hostile(tried, library)
        for group in (try_steps, try_swapped, try_private, try_standard_output, try_limited, try_names, try_own_names,
                      try_renewed, try_no_locks, try_meanwhile, try_changed_dumps, try_devices):
            group(it)
        skipped = f", {it.skipped} skipped" if it.skipped else ""
        print(f"{max(tried.count - tried.wrong, 0)} passed, {tried.wrong} failed{skipped}")
        return 1 if tried.wrong else 0


if __name__ == "__main__":
    sys.exit(main())
