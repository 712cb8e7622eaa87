#!/usr/bin/env python3
"""Tests the scripts install and uninstall in copies of them, and the man page and the completions that they install.

A program stands in dist/ of each copy, with a stamp that fits: the built one, or a script that tells how it was called. It
is installed below folders of all kinds of names, called there, also by links and after a move, installed again, and
uninstalled. Then installing fails at each step, and must leave all as it was. What the program prints as help must make
just the man page and the completions of share/, which are tried by the shells and readers that there are. A program of C is
built by what pkg-config says of the library that was installed.

usage: tests/build/test_install.py [PROGRAM]      (needs bash; groff, mandoc, zsh, fish, pkg-config and cc are of use)
"""
import hashlib
import os
import pathlib
import re
import shutil
import signal
import subprocess
import sys
import tempfile

# Finds the package `tests` from any folder, and writes nothing beside its modules.
sys.dont_write_bytecode = True
sys.path.insert(0, str(pathlib.Path(__file__).resolve().parents[2]))
from tests.build import manual_rows
from tests.support.library import built_library, compiler
from tests.support.program import TOP, built

SECONDS = 60
PLAIN = "/usr/bin:/bin"
SCRIPTS = ("install", "uninstall", "pcompact", "sources.sh", "crates.txt", "HANDLES")
PLACES = {
    "libexec/pithondlu/pcompact": 0o755, "libexec/pithondlu/shrink": 0o755, "bin/pcompact": 0o755, "share/man/man1/pcompact.1": 0o644,
    "share/bash-completion/completions/pcompact": 0o644, "share/zsh/site-functions/_pcompact": 0o644,
    "share/fish/vendor_completions.d/pcompact.fish": 0o644, "libexec/pithondlu/installed": 0o644,
    "lib/libpcompact.a": 0o644, "include/pcompact.h": 0o644, "lib/pkgconfig/pcompact.pc": 0o644,
    **{f"share/doc/pithondlu/{page.name}": 0o644 for page in (TOP / "docs").iterdir()},
}
# Prints its version, its words and the settings of the C library.
SHOWS = """\
#!/bin/sh
printf '%s' "VERSION $# <$*> with $GLIBC_TUNABLES"
"""
WORDS = ["a  word", "*"]
# In the place of mv: at the call that `fails` counts it fails, or at the one that `stops` counts it ends install by a signal.
MV = """\
#!/bin/sh
room=$(dirname -- "$0")
echo >>"$room/calls"
count=$(wc -l <"$room/calls")
[ "$count" != "$(cat "$room/fails")" ] || { echo "mv: no: No space left on device" >&2; exit 1; }
[ "$count" != "$(cat "$room/stops")" ] || kill -s TERM "$PPID"
exec /bin/mv "$@"
"""
NAMES = ["plain", "two words", "it's $HOME \"`x`\" \\n %s", "-dash", "--prefix", "*", "é", "a/b/../c//d/"]


def sum_of(path: pathlib.Path) -> str:
    return hashlib.sha256(path.read_bytes()).hexdigest()


def tree(folder: pathlib.Path) -> dict[str, tuple]:
    """All that stands below a folder: the kind and mode of each, and what it has."""
    found = {}
    for path in sorted(folder.rglob("*")):
        has = os.readlink(path) if path.is_symlink() else path.read_bytes() if path.is_file() else b""
        found[str(path.relative_to(folder))] = (path.lstat().st_mode, has)
    return found


class Installer:
    """Copies of the scripts in a folder, and how often they were tried and wrong."""

    def __init__(self, room: pathlib.Path):
        self.room = room
        # Another user calls the scripts too.
        room.chmod(0o755)
        self.count = 0
        self.wrong = 0
        self.skipped = 0
        self.one = self.repository("one", SHOWS.replace("VERSION", "one"))
        self.two = self.repository("two", SHOWS.replace("VERSION", "two"))
        self.launched = self.call([self.one / "pcompact", *WORDS], 0, "the launcher", stderr=subprocess.DEVNULL)
        self.check(self.launched.startswith("one 2 <a  word *> with glibc."), f"the launcher shows {self.launched!r}")

    def check(self, holds: bool, what: str) -> None:
        self.count += 1
        if not holds:
            self.wrong += 1
            print(what)

    def repository(self, name: str, program: str | pathlib.Path) -> pathlib.Path:
        """A copy of the scripts, with a crate, and with a program that fits it."""
        copy = self.room / "copies" / name
        (copy / "crates" / "pcompact" / "src").mkdir(parents=True)
        (copy / "crates" / "pcompact" / "src" / "main.rt").write_text(f"//! {name}\n")
        (copy / "dist").mkdir()
        for it in SCRIPTS:
            shutil.copy(TOP / it, copy)
        for it in ("share", "c", "docs"):
            shutil.copytree(TOP / it, copy / it)
        with (copy / "share" / "pcompact.1").open("a") as page:
            page.write(f'.\\" {name}\n')
        shipped = copy / "dist" / "pcompact"
        if isinstance(program, str):
            shipped.write_text(program)
        else:
            shutil.copy(program, shipped)
        shipped.chmod(0o755)
        (copy / "dist" / "libpcompact.a").write_text(f"the library {name}\n")
        self.stamp(copy)
        return copy

    def stamp(self, copy: pathlib.Path) -> None:
        """Stamps what is in dist/, with the header of c/, as built from the sources of a copy."""
        dist, c = copy / "dist", copy / "c"
        shutil.copy(c / "pcompact.h", dist)
        sources = manual_rows.printed(["sh", "-c", "top=$PWD; . ./sources.sh; sources_sum"], cwd=copy).strip()
        around = manual_rows.printed(["sh", "-c", "top=$PWD; . ./sources.sh; around_sum"], cwd=copy).strip()
        sums = {"program": dist / "pcompact", "library": dist / "libpcompact.a", "header": dist / "pcompact.h"}
        lines = [f"{word} {sum_of(file)}\n" for word, file in sums.items()]
        (dist / "stamp").write_text("".join([f"sources {sources}\naround {around}\n", *lines, "kit none\nneeds nothing\n"]))

    def call(self, words: list, status: int, what: str, **how) -> str:
        """Runs a command, which must end with this status. What it wrote."""
        env = {"PATH": PLAIN, "HOME": str(self.room / "home"), **how.pop("env", {})}
        how = {"cwd": self.room, "stdout": subprocess.PIPE, "stderr": subprocess.STDOUT, **how}
        done = subprocess.run(words, env=env, text=True, timeout=SECONDS, check=False, **how)
        self.check(done.returncode == status, f"{what}: status {done.returncode} and not {status}: {done.stdout}")
        return done.stdout or ""

    def install(self, prefix: str | pathlib.Path, what: str, status: int = 0, copy: pathlib.Path | None = None, **how) -> str:
        said = self.call([(copy or self.one) / "install", "--prefix", prefix], status, f"{what}: install", **how)
        if status != 0:
            self.check(said.startswith("install: ") and said.count("\n") == 1, f"{what}: install says {said!r}")
        return said

    def uninstall(self, prefix: str | pathlib.Path, what: str) -> str:
        return self.call([self.one / "uninstall", "--prefix", prefix], 0, f"{what}: uninstall")

    def shows(self, command: str | pathlib.Path, what: str, version: str = "one", **how) -> None:
        """Calls an installed script, which must call its program as the launcher does."""
        said = self.call([command, *WORDS], 0, what, **how)
        self.check(said == self.launched.replace("one", version), f"{what}: it shows {said!r}")


def try_names(to: Installer) -> None:
    """Folders of all kinds of names, told from where the call is made, with any umask."""
    folder = to.room / "names"
    for mask, name in [(0o077, name) for name in NAMES] + [(0o022, "plain"), (0o000, "plain")]:
        folder.mkdir()
        prefix = folder / os.path.normpath(name)
        what = f"below {name!r} with umask {mask:o}"
        said = to.install(name, what, cwd=folder, umask=mask)
        to.check(said.endswith(f"{prefix}/bin is not on PATH\n"), f"{what}: install says {said!r}")
        modes = {str(it.relative_to(prefix)): it.stat().st_mode & 0o7777 for it in prefix.rglob("*") if it.is_file()}
        to.check(modes == PLACES, f"{what}: there are {modes}")
        closed = [str(it) for it in folder.rglob("*") if it.is_dir() and it.stat().st_mode & 0o777 != 0o755]
        to.check(not closed, f"{what}: not everybody may look into {closed}")
        to.check(all(f"  {it}\n" in said for it in PLACES), f"{what}: install says {said!r}")
        to.shows(prefix / "bin" / "pcompact", what)
        said = to.uninstall(prefix, what)
        to.check(all(f"  {it}\n" in said for it in PLACES), f"{what}: uninstall says {said!r}")
        to.check(tree(folder) == {}, f"{what}: uninstall leaves {list(tree(folder))}")
        folder.rmdir()


def try_calls(to: Installer) -> None:
    """The installed script by links, from PATH, in a folder with a dash, and after a move; GLIBC_TUNABLES that is set."""
    prefix = to.room / "home" / ".local"
    said = to.call([to.one / "install"], 0, "without a folder", env={"PATH": f"{prefix}/bin:{PLAIN}"})
    to.check("PATH" not in said, f"without a folder: install says {said!r}")
    link = to.room / "a link"
    link.symlink_to(prefix / "bin" / "pcompact")
    (to.room / "link to link").symlink_to("a link")
    for command in (prefix / "bin" / "pcompact", link, to.room / "link to link"):
        to.shows(command, f"called as {command.name}")
    to.shows("pcompact", "called from PATH", env={"PATH": f"{prefix}/bin:{PLAIN}"})
    said = to.call(["sh", "-c", "GLIBC_TUNABLES= exec pcompact"], 0, "nothing told", env={"PATH": f"{prefix}/bin:{PLAIN}"})
    to.check(said == "one 0 <> with ", f"GLIBC_TUNABLES is told, though it is set: {said!r}")
    for name in ("-moved", "moved\n"):
        moved = prefix.rename(prefix.with_name(name))
        to.shows(moved / "bin" / "pcompact", "moved")
        to.shows("./pcompact", "moved, and called where it is", cwd=moved / "bin")
        prefix = moved.rename(prefix)
    to.uninstall(prefix, "without a folder")
    out = to.room / "elsewhere" / "programs"
    out.mkdir(parents=True)
    prefix.mkdir(parents=True)
    (prefix / "bin").symlink_to(out)
    to.install(prefix, "bin is a link")
    to.shows(prefix / "bin" / "pcompact", "bin is a link")
    to.uninstall(prefix, "bin is a link")
    to.check(list(tree(prefix)) == ["bin"] and not tree(out), f"bin is a link: {list(tree(prefix))} are left")


def try_again(to: Installer) -> None:
    """Another version over one, while that runs; what others have put there stays."""
    prefix = to.room / "again"
    (prefix / "share" / "man").mkdir(parents=True)
    (prefix / "bin").mkdir()
    (prefix / "bin" / "other").write_text("another program\n")
    before = tree(to.room / "again")
    to.install(prefix, "the first time")
    program = prefix / "libexec" / "pithondlu" / "pcompact"
    with program.open() as running:
        to.install(prefix, "the second time", copy=to.two)
        to.check(running.read().replace("one", "two") == program.read_text(), "a program that runs is written over")
    to.shows(prefix / "bin" / "pcompact", "the second time", "two")
    to.check(set(PLACES) < set(tree(prefix)) and not [it for it in tree(prefix) if ".new" in it or ".old" in it],
             f"the second time: there are {list(tree(prefix))}")
    page = prefix / "share" / "man" / "man1" / "pcompact.1"
    page.write_text("changed\n")
    said = to.uninstall(prefix, "a changed file")
    to.check("is not what" in said and said.endswith("  share/man/man1/pcompact.1\n"), f"a changed file: it says {said!r}")
    to.check(page.read_text() == "changed\n", "a changed file is removed")
    page.unlink()
    page.parent.rmdir()
    to.check(tree(prefix) == before, f"what others have put there: {list(tree(prefix))}")
    said = to.uninstall(prefix, "nothing to remove")
    to.check(said.startswith("there is nothing "), f"nothing to remove: uninstall says {said!r}")
    to.check(tree(prefix) == before, "uninstall takes what install has not put")


def keeps(to: Installer, prefix: pathlib.Path, what: str, status: int, **how) -> str:
    """Fails to install below a folder, which must then be as it was."""
    before = tree(to.room / "whole")
    said = to.call([to.two / "install", "--prefix", prefix], status, what, **how)
    left = tree(to.room / "whole")
    changed = [name for name in {**before, **left} if before.get(name) != left.get(name)]
    to.check(not changed, f"{what}: {changed} are others than before")
    return said


def is_refused(to: Installer, prefix: pathlib.Path, why: str, what: str, **how) -> None:
    said = keeps(to, prefix, what, 1, **how)
    to.check(said.startswith("install: ") and said.endswith(f"{why}\n") and said.count("\n") == 1, f"{what}: it says {said!r}")


def small_files() -> None:
    """What a process has whose files may have no more than some bytes, as on a disk that is full soon."""
    import resource
    signal.signal(signal.SIGXFSZ, signal.SIG_IGN)
    resource.setrlimit(resource.RLIMIT_FSIZE, (4096, 4096))


def try_faults(to: Installer) -> None:
    """A place that can't be had, over nothing and over another version."""
    prefix = to.room / "whole" / "prefix"
    prefix.parent.mkdir()
    for installed in (False, True):
        if installed:
            to.install(prefix, "before a fault")
        what = f"where {'another version' if installed else 'nothing'} is installed"
        is_refused(to, prefix, "File too large", f"{what}, on a full disk", preexec_fn=small_files, restore_signals=False)
        try_broken_moves(to, prefix, what)
    for place in ("bin", "share/man", "libexec/pithondlu", "share/zsh/site-functions"):
        shutil.rmtree(prefix)
        (prefix / place).parent.mkdir(parents=True)
        (prefix / place).write_text("a file\n")
        is_refused(to, prefix, f"{place} is no folder", f"a file in the place of the folder {place}")
        is_refused(to, prefix / place, f"{place} is no folder", "a file in the place of the prefix")
        is_refused(to, prefix / place / "a" / "b", f"{place} is no folder", "a file in the place of a folder above the prefix")
    for place in PLACES:
        shutil.rmtree(prefix)
        (prefix / place).mkdir(parents=True)
        is_refused(to, prefix, "is not from ./install: move it away first", f"a folder in the place of {place}")
        if place != "libexec/pithondlu/installed":
            (prefix / place).rmdir()
            (prefix / place).symlink_to("/nowhere")
            is_refused(to, prefix, "is not from ./install: move it away first", f"a link in the place of {place}")
            (prefix / place).unlink()
            (prefix / place).write_text("another's\n")
            is_refused(to, prefix, "is not from ./install: move it away first", f"another's file in the place of {place}")


def try_broken_moves(to: Installer, prefix: pathlib.Path, what: str) -> None:
    """Each file in turn can't be put into its place, or install is ended then by a signal."""
    tools = to.room / "tools"
    tools.mkdir(exist_ok=True)
    (tools / "mv").write_text(MV)
    (tools / "mv").chmod(0o755)
    for number in range(1, len(PLACES) + 1):
        for ends, status in (("fails", 1), ("stops", 143)):
            for it in ("calls", "fails", "stops"):
                (tools / it).write_text("")
            (tools / ends).write_text(f"{number}")
            env = {"PATH": f"{tools}:{PLAIN}"}
            said = keeps(to, prefix, f"{what}, call {number} of mv {ends}", status, env=env)
            wanted = said.endswith(": No space left on device\n") and said.count("\n") == 1 if ends == "fails" else said == ""
            to.check(wanted, f"{what}, call {number} of mv {ends}: it says {said!r}")


def try_closed(to: Installer) -> None:
    """Folders that the user may not change."""
    user = {"user": 65534} if os.geteuid() == 0 else {}
    closed = to.room / "whole" / "closed"
    closed.mkdir()
    prefix = closed / "prefix"
    to.install(prefix, "for another user")
    folders = [closed, prefix, *(it for it in prefix.rglob("*") if it.is_dir())]
    for it in folders:
        it.chmod(0o555)
    is_refused(to, closed / "new", "Permission denied", "a folder that may not be made", **user)
    is_refused(to, prefix, "Permission denied", "files that may not be made", **user)
    before = tree(closed)
    said = to.call([to.one / "uninstall", "--prefix", prefix], 1, "files that may not be removed", **user)
    to.check(said.startswith("uninstall: ") and said.endswith("Permission denied\n") and said.count("\n") == 1,
             f"files that may not be removed: uninstall says {said!r}")
    to.check(tree(closed) == before, "files that may not be removed are removed")
    for it in folders:
        it.chmod(0o755)


def try_words(to: Installer) -> None:
    for script in ("install", "uninstall"):
        usage = to.call([to.one / script, "--help"], 0, f"{script} --help")
        to.check(usage.startswith(f"usage: ./{script} [--prefix FOLDER]\n"), f"{script} --help says {usage!r}")
        for words in (["--quiet"], ["--prefix"], ["--prefix", ""], ["--prefix="], ["folder"], ["--prefix", "a", "b"]):
            what = f"{script} {words}"
            said = to.call([to.one / script, *words], 2, what, stdout=subprocess.DEVNULL, stderr=subprocess.PIPE)
            to.check(to.call([to.one / script, *words], 2, what) == usage, f"{what}: it says no usage")
            to.check(said == "", f"{what}: usage is on standard output")
        said = to.call([to.one / script, "--prefix", "a\nb"], 2, f"{script} to a name of two lines")
        to.check(said.startswith(f"{script}: ") and said.count("\n") == 1, f"a name of two lines: {script} says {said!r}")
    to.check(not (to.room / "a").exists() and not (to.room / "folder").exists(), "wrong words make a folder")
    for word, prefix in (("joined", to.room / "joined"), ("~/x y", to.room / "home" / "x y")):
        to.call([to.one / "install", f"--prefix={word}"], 0, "a joined option")
        to.check((prefix / "bin" / "pcompact").exists(), f"the option --prefix={word} is not taken")
        to.call([to.one / "uninstall", f"--prefix={word}"], 0, "a joined option")


def try_unfit(to: Installer) -> None:
    """No program or no library that fits the sources."""
    of_program = ("dist/pcompact", "crates/pcompact/src/main.rt", "dist/stamp")
    of_c = ("heap.c", "heap.h", "in_place.c", "lent.c", "lent.h", "segments.c", "slide.c", "freestanding/stdint.h")
    of_library = ("dist/libpcompact.a", "dist/pcompact.h", "c/pcompact.h", *(f"c/{it}" for it in of_c))
    for change in (*of_program, *of_library):
        copy = to.repository(f"changed/{change}", SHOWS)
        (copy / change).write_text("#!/bin/sh\n")
        said = to.install(to.room / "none", f"{change} is changed", 70, copy)
        end = "; ./prove builds it\n" if change in of_program else "; ./prove pcompact_c builds it\n"
        to.check(said.endswith(end), f"{change} is changed: install says {said!r}")
        to.check(not (to.room / "none").exists(), f"{change} is changed: a folder is made")


def try_library(to: Installer) -> None:
    """The library is found by what pkg-config says, also after a move, below a folder whose name has a space."""
    version = int(re.search(r"PCOMPACT_VERSION (\d+)", (TOP / "c" / "pcompact.h").read_text())[1])
    numbers = f"{version // 1_000_000}.{version // 1_000 % 1_000}.{version % 1_000}"
    to.check(f"\nVersion: {numbers}\n" in (TOP / "share" / "pcompact.pc").read_text(), "pcompact.pc has another version than pcompact.h")
    folder, why = built_library()
    if not folder or not compiler() or not shutil.which("pkg-config"):
        to.skipped += 1
        print(f"skipped: the library: {why or 'there is no C compiler or no pkg-config'}")
        return
    copy = to.repository("library", SHOWS)
    shutil.copy(folder / "libpcompact.a", copy / "dist")
    shutil.copy(TOP / "examples" / "c" / "first.c", to.room)
    to.stamp(copy)
    prefix = to.room / "two words" / "of a name"
    to.install(prefix, "the library", copy=copy)
    for name in ("of a name", "moved there"):
        prefix = prefix.rename(prefix.with_name(name))
        words = 'eval "cc -o first first.c $(pkg-config --cflags --libs pcompact)" && ./first'
        env = {"PKG_CONFIG_PATH": str(prefix / "lib" / "pkgconfig")}
        said = to.call(["sh", "-c", words], 0, f"a program with the library below {name!r}", env=env)
        to.check(said.startswith("the first free address is 6\n"), f"a program with the library below {name!r}: it says {said!r}")
        said = to.call(["pkg-config", "--modversion", "pcompact"], 0, "its version", env=env)
        to.check(said == f"{numbers}\n", f"pkg-config says that the version is {said!r}")
    to.uninstall(prefix, "the library")
    to.check(not prefix.exists(), f"the library: uninstall leaves {list(tree(prefix))}")


def try_program(to: Installer, program: pathlib.Path) -> None:
    """The built program, also while it is installed again."""
    copy = to.repository("built", program)
    prefix = to.room / "a folder for it"
    installed = prefix / "bin" / "pcompact"
    to.install(prefix, "the program", copy=copy)
    help_text = manual_rows.printed([program, "--help"])
    to.check(to.call([installed, "--help"], 0, "its help") == help_text, "the installed program has another help")
    image = TOP / "examples" / "base.pcheap"
    text = manual_rows.printed([program, "text", image]).encode()
    with subprocess.Popen([installed, "text", "/dev/stdin"], stdin=subprocess.PIPE, stdout=subprocess.PIPE) as running:
        to.install(prefix, "while the program runs", copy=copy)
        said, _ = running.communicate(image.read_bytes(), SECONDS)
    to.check(said == text != b"", "a program that runs while it is installed again prints something else")
    to.uninstall(prefix, "the program")
    to.check(not prefix.exists(), f"the program: uninstall leaves {list(tree(prefix))}")


def main() -> None:
    program = (pathlib.Path(sys.argv[1]) if len(sys.argv) > 1 else built()).resolve()
    with tempfile.TemporaryDirectory() as room:
        to = Installer(pathlib.Path(room).resolve())
        for it in (try_names, try_calls, try_again, try_faults, try_closed, try_words, try_unfit, try_library):
            it(to)
        try_program(to, program)
        manual_rows.try_all(program, to.check)
    skipped = f", {to.skipped} skipped" if to.skipped else ""
    print(f"{to.count - to.wrong} passed, {to.wrong} failed{skipped}")
    sys.exit(to.wrong > 0)


if __name__ == "__main__":
    main()
