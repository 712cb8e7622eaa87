#!/usr/bin/env python3
"""Tests the scripts pcompact, prove, sources.sh and build_crate.py, in copies of them and with a stand-in for the kit's rt, which
proves nothing and "builds" a small program of C that shows its words and its folder, and a library of one function.

usage: tests/build/test_launcher.py      (needs a C compiler)
"""
import os
import pathlib
import re
import shutil
import signal
import subprocess
import sys
import tempfile
import time

TOP = pathlib.Path(__file__).resolve().parents[2]
PLAIN = "/usr/bin:/bin"
TUNABLES = ("glibc.malloc.hugetlb=1:glibc.malloc.mmap_max=0:glibc.malloc.arena_max=1:glibc.malloc.tcache_count=0:"
            "glibc.malloc.top_pad=67108864")
# The kits whose module build_crate.py knows, and others.
KITS = ("rattle-kit-13b logic dac8208d650f15bf", "rattle-kit-13f logic dac8208d650f15bf")
OTHER_KITS = ("rattle-kit-13g logic dac8208d650f15bf", "rattle-kit-13f logic 0000000000000000", "rattle-kit-13f", "")
# What build_crate.py says where it only calls rt.
TAKES_LONGER = "rt takes longer, as its module isn't the one that is known here"
# The words of its call in the folder of a crate, but for the last.
BUILD = ("../../tests/build/build_crate.py", "2")
# What prove is made of, beside what all scripts share.
PARTS = ("__init__.py", "build/build_crate.py", "build/crate_checks.py", "build/crate_graph.py")
NOTE = "pcompact: this program was proved and built elsewhere, from exactly these sources; ./prove proves it here\n"

# Ends with status 3, or 0 for --version, or 1 where it is to look like one that doesn't start.
SHOWS = r"""
#include <stdio.h>
#include <stdlib.h>
#include <string.h>
#include <unistd.h>
int main(int count, char **words) {
    char folder[4096];
    if (count == 2 && strcmp(words[1], "--version") == 0) return STARTS;
    printf("%d %s in %s with %s\n", count - 1, words[1], getcwd(folder, sizeof folder), getenv("GLIBC_TUNABLES"));
    return 3;
}
"""

STAND_IN = r"""#!/bin/sh
here=$(dirname -- "$0")
name=${PWD##*/}
echo "$1 $name" >>"$here/calls"
echo "$* in $PWD" >>"$here/words"
case $1 in
version) cat "$here/kit" ;;
doc) echo "$here/START-HERE.md" ;;
lib | test | run)
    # As rt does, it needs the libraries below.
    for it in $(sed -n "s/^$name\( [^:]*\)*://p" ../../crates.txt); do
        [ ! -d "../$it" ] || [ -e "../$it/out/rlib/stamp" ] || exit 1
    done
    [ ! -e "$here/sleeps" ] || exec sleep "$(cat "$here/sleeps")"
    [ ! -e "$here/fails-$name" ] || exit 1
    [ ! -e "$here/changes" ] || echo "//! Changed again." >"$(cat "$here/changes")"
    mkdir -p out/rlib out/incremental
    case $1 in
    lib) if [ "$name" = pcompact_c ]; then cp "$here/part.a" "out/lib$name.a"; else echo stamp >out/rlib/stamp; fi ;;
    test) echo tests >"out/${name}_tests" ;;
    run) sleep 1; cp "$here/shows" "out/$name" ;;
    esac
    ;;
esac
"""

# What a library that keeps its statements alone is proved by: a stand-in for the module that rt is made of.
MODULE = r"""
import pathlib
import subprocess
KIT = pathlib.Path(__file__).parent
class Crate:
    cuts_libraries = False
    def __init__(self, folder, root, known):
        self.folder, self.root = pathlib.Path(folder), pathlib.Path(root)
    def below(self):
        lines = [line.partition(":") for line in (self.root / "crates.txt").read_text().splitlines()]
        uses = next(uses for head, _, uses in lines if head.split()[:1] == [self.folder.name])
        folders = [self.root / "crates" / it for it in uses.split()]
        return [Crate(it, self.root, {}) for it in folders if it.is_dir()]
    def is_built(self):
        return (self.folder / "out/rlib/stamp").exists()
    def stamp(self):
        return "marked"
    def build_rlib(self, flags, anew):
        is_right = anew and self.cuts_libraries and flags[0] == "--jobs" and "--empty-contracts" not in help_of("check")
        how = "statements" if is_right else "wrong"
        with open(KIT / "calls", "a") as calls:
            print(how, self.folder.name, file=calls)
        if (KIT / f"fails-{self.folder.name}").exists():
            return 1
        (self.folder / "out/rlib").mkdir(parents=True)
        return 0
def help_of(verb):
    return "--empty-contracts"
def guarded():
    return []
def root_above(folder):
    return str(pathlib.Path(folder).parents[1])
def lock(crates):
    return []
def main(*words):
    return subprocess.run([KIT / "rt", *words]).returncode
"""


class Launcher:
    """Copies of the repository's scripts in a folder, and how often they were tried and wrong."""

    def __init__(self, room: pathlib.Path):
        self.room = room
        self.kit = room / "kit"
        self.kit.mkdir()
        self.count = 0
        self.wrong = 0
        for name, starts in (("shows", 0), ("dead", 1)):
            (room / "shows.c").write_text(SHOWS.replace("STARTS", str(starts)))
            subprocess.run(["cc", "-O1", "-o", self.kit / name, room / "shows.c"], check=True)
        (self.kit / "rt").write_text(STAND_IN)
        (self.kit / "rt").chmod(0o755)
        self.name_kit("stand-in")
        (room / "part.c").write_text("int part(void) { return 1; }\n")
        subprocess.run(["cc", "-c", "-o", room / "part.o", room / "part.c"], check=True)
        subprocess.run(["ar", "rcsD", self.kit / "part.a", room / "part.o"], check=True)
        tools = self.kit / "toolchain" / "bin"
        tools.mkdir(parents=True)
        for name, tool in (("clang", "cc"), ("llvm-ar", "ar")):
            (tools / name).symlink_to(shutil.which(tool))

    def name_kit(self, name: str) -> None:
        """What `rt version` prints from now on."""
        (self.kit / "kit").write_text(f"{name}\n")

    def repository(self, name: str) -> pathlib.Path:
        """A copy of the scripts, with a file of code for each crate."""
        copy = self.room / name
        copy.mkdir(parents=True)
        for it in ("pcompact", "prove", "sources.sh", "HANDLES", "crates.txt"):
            shutil.copy(TOP / it, copy)
        shutil.copytree(TOP / "c", copy / "c")
        (copy / "tests" / "build").mkdir(parents=True)
        for it in PARTS:
            shutil.copy(TOP / "tests" / it, copy / "tests" / it)
        for crate in crate_names():
            (copy / "crates" / crate / "src").mkdir(parents=True)
            (copy / "crates" / crate / "src" / "lib.rt").write_text("//! A crate.\n")
        return copy

    def check(self, holds: bool, what: str) -> None:
        self.count += 1
        if not holds:
            self.wrong += 1
            print(what)

    def call(self, words: list, status: int | None, what: str, **how) -> tuple[str, str]:
        """Runs a command, which must end with this status if one is given. What it wrote, and the calls of rt but for its version
        and its page."""
        (self.kit / "calls").write_text("")
        kit = how.pop("kit", True)
        plain = how.pop("tools", PLAIN)
        path = f"{how.pop('before', self.kit)}:{plain}" if kit else plain
        env = {"PATH": path, "HOME": str(self.room / "home"), **how.pop("env", {})}
        done = subprocess.run(words, env=env, cwd=how.pop("cwd", self.room), capture_output=True, text=True, timeout=120)
        said = done.stdout + done.stderr
        self.check(status in (None, done.returncode), f"{what}: status {done.returncode} and not {status}: {said}")
        calls = (self.kit / "calls").read_text().splitlines()
        return said, " ".join(sorted(it for it in calls if not it.startswith(("version", "doc"))))

    def runs(self, script: pathlib.Path, what: str, err: str = "", calls: str = "", tunables: str = TUNABLES, **how) -> None:
        """Calls the launcher, which must run the program after these calls of rt, and say just this besides."""
        said, called = self.call([script, "a word"], 3, what, **how)
        wanted = f"1 a word in {self.room} with {tunables}\n{err}"
        self.check(said == wanted, f"{what}: it shows {said!r} and not {wanted!r}")
        self.check(called == calls, f"{what}: rt is called for {called!r} and not for {calls!r}")

    def refuses(self, script: pathlib.Path, why: str, what: str, **how) -> None:
        """Calls the launcher, which must run nothing and say why in one line."""
        said, _ = self.call([script, "a word"], 70, what, kit=False, **how)
        self.check(said.startswith("pcompact: ") and why in said and said.count("\n") == 1, f"{what}: it says {said!r}")


def crate_names() -> list[str]:
    return re.findall(r"^([a-z]\w*)[^:\n]*:", (TOP / "crates.txt").read_text(), re.MULTILINE)


def below_of(crate: str) -> list[str]:
    line = re.search(rf"^{crate}(?: [^:\n]*)?:(.*)$", (TOP / "crates.txt").read_text(), re.MULTILINE)
    return [it for it in line[1].split() if it in crate_names()]


def program_crates() -> list[str]:
    found = ["pcompact"]
    for crate in found:
        found += [it for it in below_of(crate) if it not in found]
    return found


def built(crates: list[str]) -> str:
    return " ".join(sorted(f"{'run' if it == 'pcompact' else 'lib'} {it}" for it in crates))


def source_of(copy: pathlib.Path, crate: str) -> pathlib.Path:
    return copy / "crates" / crate / "src" / "lib.rt"


def change(copy: pathlib.Path, crate: str, text: str) -> None:
    """Changes a source as git and most editors do: a new file takes the place of the old one."""
    source = source_of(copy, crate)
    new = source.with_suffix(".new")
    new.write_text(f"//! {text}\n")
    new.replace(source)


def age(copy: pathlib.Path) -> None:
    """Dates all files of a copy back, so that a note that is made now is newer."""
    then = time.time() - 10
    for path in copy.rglob("*"):
        os.utime(path, (then, then))


def try_first_calls(it: Launcher) -> pathlib.Path:
    """Nothing is built; then two calls at once; then later ones."""
    copy = it.repository("first")
    it.refuses(copy / "pcompact", "isn't on PATH", "no program and no kit")
    env = {"PATH": f"{it.kit}:{PLAIN}", "HOME": str(it.room / "home")}
    first = subprocess.Popen([copy / "pcompact", "one"], env=env, stdout=subprocess.PIPE, stderr=subprocess.PIPE, text=True)
    while first.poll() is None and not (copy / "out/pcompact/beside").exists():
        time.sleep(0.05)
    said, _ = it.call([copy / "pcompact", "a word"], 3, "a call while another one proves")
    it.check("waiting for another call" in said, f"the second call doesn't say that it waits: {said!r}")
    said = first.communicate()[1]
    count = len(program_crates())
    it.check(f"{count} crates are to be proved: about" in said, f"how much is to be proved isn't said: {said!r}")
    it.check(f"proving pcompact ({(count - 1) * 100 // count} % are done, about" in said, f"how far it is isn't said: {said!r}")
    calls = (it.kit / "words").read_text().splitlines()
    places = [line for line in calls if line.startswith(("lib ", "run "))]
    it.check(len(places) == count, f"each crate is to be proved once: {places}")
    it.check(all(" --jobs " in line and "/beside/" in line for line in places), f"how crates are proved: {places}")
    order = [line.rpartition("/")[2] for line in places]
    it.check(all(order.index(low) < order.index(crate) for crate in order for low in below_of(crate)), f"the order: {order}")
    it.check(not (copy / "out/pcompact/beside").exists(), "the copies of the sources are left")
    it.check(not list(copy.glob("crates/*/out/incremental")), "what speeds the next check alone is left")
    it.runs(copy / "pcompact", "a later call")
    it.runs(copy / "pcompact", "a later call without the kit", kit=False)
    return copy


def try_paths(it: Launcher, copy: pathlib.Path) -> None:
    """The launcher by links, and in folders with odd names."""
    (it.room / "odd").mkdir()
    (it.room / "link").symlink_to(copy / "pcompact")
    (it.room / "folder").symlink_to(copy)
    it.runs(it.room / "link", "a link to the script")
    it.runs(it.room / "folder" / "pcompact", "a link to the folder")
    (it.room / "linked prove").symlink_to(copy / "prove")
    for script in (it.room / "linked prove", it.room / "folder" / "prove"):
        said, calls = it.call([script], 0, f"prove as {script.relative_to(it.room)}")
        it.check("prove: proved as they stand: " in said and calls == "", f"prove as {script.relative_to(it.room)}: {said!r} {calls}")
    it.check(not list(copy.rglob("__pycache__")), "prove leaves a __pycache__")
    # Where a part of such a name leads, and the folder above.
    for name in ("", "sp", "two", "ends"):
        stranger = it.room / "odd" / name
        stranger.mkdir(exist_ok=True)
        for script in ("sources.sh", "out/pcompact/pcompact", "lines/out/pcompact/pcompact"):
            (stranger / script).parent.mkdir(parents=True, exist_ok=True)
            (stranger / script).write_text("#!/bin/sh\necho a stranger\nexit 0\n")
            (stranger / script).chmod(0o755)
    for name in ("sp ace '\"$x*", "two\nlines", "ends\n", "-dash"):
        odd = it.room / "odd" / name
        shutil.copytree(copy, odd, symlinks=True)
        it.runs(odd / "pcompact", f"a folder named {name!r}")
        shutil.copy(TOP / "test", odd)
        for script in ("test", "prove"):
            said, _ = it.call([odd / script, "--help"], 0, f"{script} in a folder named {name!r}")
            it.check(said.startswith(f"usage: ./{script} "), f"{script} in a folder named {name!r}: it shows {said!r}")
    shutil.copy(copy / "pcompact", it.room / "alone")
    it.refuses(it.room / "alone", "isn't the folder of the repository", "a copy of the script alone")


def try_changes(it: Launcher, copy: pathlib.Path) -> None:
    """Changed sources are proved again, with what stands on them, and nothing else is."""
    change(copy, "pcompact", "Changed.")
    it.refuses(copy / "pcompact", "wasn't built from these sources", "a source changed, and no kit")
    os.utime(copy / "crates/pcompact/src/lib.rt", (0, 0))
    it.refuses(copy / "pcompact", "wasn't built from these sources", "a source changed and dated back")
    change(copy, "pcompact", "A crate.")
    it.runs(copy / "pcompact", "a source changed back")
    (copy / "crates/fill/proofs").mkdir()
    (copy / "crates/fill/proofs/A.antt").write_text("x = y\n")
    change(copy, "stream_tests", "Changed.")
    it.runs(copy / "pcompact", "a proof and a crate of tests changed")
    change(copy, "collector", "Changed.")
    said, calls = it.call([copy / "pcompact", "a word"], 3, "a source of a crate below changed")
    it.check(calls == built(["fill", "collector", "collection_commands", "pcompact"]), f"proved again: {calls}")
    (copy / "crates.txt").write_text((copy / "crates.txt").read_text().replace("work_order:", "work_order may_wait=1:"))
    it.refuses(copy / "pcompact", "wasn't built from these sources", "crates.txt changed")


def try_times(it: Launcher, copy: pathlib.Path) -> None:
    """A changed source, and a note as new as its folder, or of a time that hasn't come yet."""
    found = copy / "out/pcompact/found"
    it.runs(copy / "pcompact", "the sources before one changes")
    note = found.read_text()
    change(copy, "pcompact", "A crumb")
    changed = source_of(copy, "pcompact").parent.stat().st_mtime_ns
    second = 10**9
    for moment, what in ((changed - 100 * second, "noted before"), (changed, "noted at once"),
                         (changed + 3600 * second, "noted by a clock that was set back since")):
        found.write_text(note)
        os.utime(found, ns=(moment, moment))
        it.refuses(copy / "pcompact", "wasn't built from these sources", f"a source changed, {what}")
        it.check(not found.exists(), f"a source changed, {what}: the note stays")
    change(copy, "pcompact", "A crate.")
    it.runs(copy / "pcompact", "the source changed back")


def try_in_place(it: Launcher, copy: pathlib.Path) -> None:
    """A source that is written in place: what tells that the sources have changed all the same."""
    source = source_of(copy, "pcompact")
    index = copy / ".git" / "index"
    index.parent.mkdir()
    index.write_text("")
    looks = (("git's index is written", lambda: index.write_text("more")),
             ("./prove has begun", lambda: (copy / "out/pcompact/build.log").write_text("")),
             ("a script has looked", lambda: program_path(copy)),
             ("a file of the same folder is new", (source.parent / "new.rt").touch),
             ("the program is written", lambda: os.utime(copy / "out/pcompact/pcompact")),
             ("its stamp is written", lambda: os.utime(copy / "out/pcompact/stamp")),
             ("HANDLES is written", lambda: os.utime(copy / "HANDLES")),
             ("another program is shipped", lambda: ship_stamp(copy)))
    for what, act in looks:
        age(copy)
        it.runs(copy / "pcompact", f"before {what}")
        source.write_text("//! A crumb\n")
        it.runs(copy / "pcompact", "a source that is written in place")
        act()
        it.refuses(copy / "pcompact", "wasn't built from these sources", f"a source that is written in place, and {what}")
        source.write_text("//! A crate.\n")
        (source.parent / "new.rt").unlink(missing_ok=True)
    shutil.rmtree(copy / "dist")
    shutil.rmtree(index.parent)
    try_worktree(it, copy)


def try_worktree(it: Launcher, copy: pathlib.Path) -> None:
    """The same in a linked worktree of git, where .git is a file."""
    source = source_of(copy, "pcompact")
    index = it.room / "kept by git" / "index"
    index.parent.mkdir()
    for place in (index.parent, os.path.relpath(index.parent, copy)):
        (copy / ".git").write_text(f"gitdir: {place}\n")
        index.write_text("")
        age(copy)
        age(index.parent)
        it.runs(copy / "pcompact", "in a worktree")
        source.write_text("//! A crumb\n")
        it.runs(copy / "pcompact", "in a worktree, a source that is written in place")
        index.write_text("more")
        it.refuses(copy / "pcompact", "wasn't built from these sources", f"in a worktree of {place}, git's index is written")
        source.write_text("//! A crate.\n")
    (copy / ".git").unlink()


def program_path(copy: pathlib.Path) -> None:
    subprocess.run(["sh", "-c", 'top=$1; . "$top/sources.sh"; program_path', "sh", copy], capture_output=True, check=False)


def ship_stamp(copy: pathlib.Path) -> None:
    """Puts a stamp into dist/ as an archive that keeps times does."""
    (copy / "dist").mkdir()
    (copy / "dist" / "stamp").write_text(f"sources {'0' * 64}\n")
    for path in (copy / "dist" / "stamp", copy / "dist"):
        os.utime(path, (0, 0))


def try_copies(it: Launcher, copy: pathlib.Path) -> None:
    """A copy whose files all have the time at which they were copied, its note the last: it is of the other folder. Notes that are damaged."""
    it.runs(copy / "pcompact", "before it is copied")
    change(copy, "pcompact", "A crumb")
    other = it.room / "copied"
    shutil.copytree(copy, other, symlinks=True)
    found = other / "out/pcompact/found"
    later = time.time() - 1
    for path in other.rglob("*"):
        os.utime(path, (later - 10, later - 10))
    os.utime(found, (later, later))
    it.refuses(other / "pcompact", "wasn't built from these sources", "a copy of a changed repository and of its note")
    shutil.rmtree(other)
    change(copy, "pcompact", "A crate.")
    it.runs(copy / "pcompact", "the source that was copied changed back")
    found = copy / "out/pcompact/found"
    strange = found.read_text().replace("out/pcompact\n", "../strange\n")
    for text in (strange, "", "\0\0", "sources\n", strange.partition("../")[0]):
        age(copy)
        found.write_text(text)
        it.runs(copy / "pcompact", f"a note that is {text!r}")


def try_links(it: Launcher, copy: pathlib.Path) -> None:
    """A source that is a link: what it leads to counts once there is a look, and the folder that a link leads to at once."""
    source = source_of(copy, "pcompact")
    target = it.room / "elsewhere.rt"
    source.rename(target)
    source.symlink_to(target)
    age(copy)
    it.runs(copy / "pcompact", "a source that is a link")
    target.write_text("//! A crumb.\n")
    it.runs(copy / "pcompact", "what a link leads to is written in place")
    os.utime(copy / "crates.txt")
    it.refuses(copy / "pcompact", "wasn't built from these sources", "what a link leads to changed")
    target.write_text("//! A crate.\n")
    source.unlink()
    target.rename(source)
    folder = it.room / "folder elsewhere"
    source.parent.rename(folder)
    source.parent.symlink_to(folder)
    age(copy)
    it.runs(copy / "pcompact", "a folder of sources that is a link")
    change(copy, "pcompact", "A crumb.")
    it.refuses(copy / "pcompact", "wasn't built from these sources", "a source below a link changed")
    change(copy, "pcompact", "A crate.")
    source.parent.unlink()
    folder.rename(source.parent)


TOOLS = ("sh", "cat", "date", "find", "mkdir", "mv", "readlink", "rm", "sed", "sort", "touch", "xargs", "sha256sum")


def try_tools(it: Launcher, copy: pathlib.Path) -> None:
    """Tools that aren't there, or fail: nothing is taken for right that can't be compared, and nothing is proved for it."""
    clone = it.room / "without tools"
    rows = [(missing, 70, "the sources have no checksum here: ") for missing in ("sha256sum", "sed", "find", "xargs", "sort", "cat")]
    for missing, status, why in (*rows, ("date mv readlink touch mkdir", 3, "1 x in")):
        for stand_in in (None, "#!/bin/sh\nexit 1\n", "#!/bin/sh\necho part\nkill -9 $$\n")[:3 if status == 70 else 2]:
            shutil.copytree(copy, clone, symlinks=True)
            folder = it.room / "some tools"
            folder.mkdir()
            for tool in set(TOOLS) - set(missing.split()):
                (folder / tool).symlink_to(shutil.which(tool, path=PLAIN))
            for tool in missing.split() if stand_in else []:
                (folder / tool).write_text(stand_in)
                (folder / tool).chmod(0o755)
            what = f"{'with a failing' if stand_in else 'without'} {missing}"
            how = {"before": f"{folder}:{it.kit}", "tools": "/nowhere"}
            said, calls = it.call([shutil.which("sh"), clone / "pcompact", "x"], status, what, **how)
            it.check(why in said and ("1 x in" in said) == (status == 3) and said.count("\n") == 1, f"{what}: it says {said!r}")
            it.check(calls == "", f"{what}: rt is called for {calls!r}")
            shutil.rmtree(clone)
            shutil.rmtree(folder)


def try_limits(it: Launcher, copy: pathlib.Path) -> None:
    """Limits on the size of files, on memory and on processes: a note that can't be written is no fault, a look that fails is."""
    clone = it.room / "limited"
    for limit in ("-f 0", "-f 1", "-f 64"):
        clone = shipped(it, copy, f"limited {limit}")
        for note in (NOTE, "" if (clone / "out/pcompact/found").exists() else None):
            said, calls = it.call(limited(limit, clone), 3, f"ulimit {limit}")
            it.check(said.startswith(f"1 a word in {it.room} with ") and calls == "", f"ulimit {limit}: {said!r}, rt is called for {calls!r}")
            it.check(note is None or said.endswith(f"\n{note}"), f"ulimit {limit}: it says {said!r}")
            it.check(not list(clone.glob("out/pcompact/found.*")), f"ulimit {limit}: half a note is left")
    clone = shipped(it, copy, "little memory")
    said, calls = it.call(limited("-v 4096", clone), None, "ulimit -v 4096")
    it.check(calls == "" and said.startswith(("pcompact: the sources have no checksum here: ", "1 a word ")), f"ulimit -v 4096: {said!r}")
    it.check(said.count("\n") == 1, f"ulimit -v 4096: it says {said!r}")
    clone = shipped(it, copy, "no memory for the program")
    (clone / "dist/pcompact").chmod(0o644)
    said, calls = it.call(limited("-v 9999999", clone), 70, "a program that doesn't start under ulimit -v")
    it.check("ulimit -v" in said and calls == "", f"a program that doesn't start under ulimit -v: {said!r}, rt is called for {calls!r}")
    clone = shipped(it, copy, "no processes")
    said, calls = it.call(limited("-p 0", clone), None, "ulimit -p 0")
    is_run = os.geteuid() == 0 and said.startswith("1 a word ")
    it.check(calls == "" and (is_run or said.startswith("pcompact: ")), f"ulimit -p 0: {said!r}, rt is called for {calls!r}")


def limited(limit: str, copy: pathlib.Path) -> list:
    return ["sh", "-c", f'ulimit {limit}; exec "$@"', "sh", copy / "pcompact", "a word"]


def try_cost(it: Launcher, copy: pathlib.Path) -> None:
    """What a call takes beside the program, with as many folders as there are: no process but the program's, two looks at each
    folder, and few milliseconds."""
    clone = shipped(it, copy, "cost")
    folders = [path for kind in ("src", "specs") for path in (TOP / "crates").glob(f"*/{kind}/**/")]
    for folder in folders:
        (clone / folder.relative_to(TOP)).mkdir(parents=True, exist_ok=True)
    age(clone)
    it.runs(clone / "pcompact", "a clone with all folders", NOTE, kit=False)
    it.runs(clone / "pcompact", "its second call", kit=False)
    if shutil.which("strace"):
        log = it.room / "strace.log"
        it.call([shutil.which("strace"), "-f", "-o", log, clone / "pcompact", "a word"], 3, "a call under strace")
        calls = re.findall(r"^\d+ +(\w+)\(", log.read_text(), re.MULTILINE)
        started = [name for name in calls if name.startswith("execve") or "fork" in name or "clone" in name]
        stats = sum("stat" in name or "access" in name for name in calls)
        print(f"a call looks at {stats} files, of {len(folders)} folders twice each, and reads {calls.count('getdents64')} folders")
        it.check(started == ["execve"] * 2, f"a call starts {started}")
        it.check(stats <= 2 * len(folders) + 60 and "getdents64" not in calls, f"a call looks at {stats} files")
    words = {"the program": [clone / "dist/pcompact", "a word"], "the launcher": [clone / "pcompact", "a word"]}
    taken = {name: [] for name in words}
    for _ in range(200):
        for name, call in words.items():
            began = time.perf_counter()
            subprocess.run(call, stdout=subprocess.DEVNULL, check=False)
            taken[name].append(1000 * (time.perf_counter() - began))
    least, middle = ({name: sorted(of)[at] for name, of in taken.items()} for at in (0, 100))
    more = {name: at["the launcher"] - at["the program"] for name, at in (("least", least), ("middle", middle))}
    print(f"of 200 calls in turn the middle one takes {more['middle']:.1f} ms more than the program, and the least {more['least']:.1f}")
    it.check(more["least"] < 8, f"a call takes {more['least']:.1f} ms more than the program")


def try_failures(it: Launcher, copy: pathlib.Path) -> None:
    """A crate that isn't proved, and a call that is ended."""
    change(copy, "raw_region", "Changed.")
    (it.kit / "fails-raw_region").touch()
    said, calls = it.call([copy / "pcompact", "a word"], 70, "a crate that isn't proved")
    it.check("the crate raw_region is not proved" in said, f"what isn't proved isn't said: {said!r}")
    (it.kit / "fails-raw_region").unlink()
    seconds = f"30.{os.getpid()}"
    (it.kit / "sleeps").write_text(seconds)
    env = {"PATH": f"{it.kit}:{PLAIN}", "HOME": str(it.room / "home")}
    call = subprocess.Popen([copy / "prove"], env=env, stdout=subprocess.DEVNULL, stderr=subprocess.DEVNULL)
    asleep = ["pgrep", "-f", f"^sleep {seconds}$"]
    while call.poll() is None and not subprocess.run(asleep, capture_output=True).stdout:
        time.sleep(0.1)
    call.send_signal(signal.SIGTERM)
    it.check(call.wait(20) == 128 + signal.SIGTERM, f"a call that is ended has status {call.returncode}")
    it.check(not subprocess.run(asleep, capture_output=True).stdout, "what it started still runs")
    it.check((copy / "crates/raw_region/out/rlib.tar.gz").is_file(), "what was kept is gone")
    (it.kit / "sleeps").unlink()
    said, calls = it.call([copy / "pcompact", "a word"], 3, "the call after that")
    it.check("lib raw_region" in calls and "run pcompact" in calls, f"proved then: {calls}")


def try_changes_meanwhile(it: Launcher, copy: pathlib.Path) -> None:
    """A source that changes while others are proved: what was built isn't taken for its program."""
    change(copy, "pcompact", "Changed once more.")
    (it.kit / "changes").write_text(str(copy / "crates/raw_region/src/lib.rt"))
    said, _ = it.call([copy / "prove"], 1, "a source that changes meanwhile")
    it.check("sources have changed meanwhile" in said, f"that a source has changed isn't said: {said!r}")
    (it.kit / "changes").unlink()
    said, calls = it.call([copy / "pcompact", "a word"], 3, "the call after a source changed meanwhile")
    it.check("lib raw_region" in calls and "run pcompact" in calls, f"proved after a source changed meanwhile: {calls}")


def try_above(it: Launcher, copy: pathlib.Path) -> None:
    """Crates that are named, with those above them and their tests."""
    change(copy, "heap_map", "Changed.")
    said, calls = it.call([copy / "prove", "heap_map"], 0, "prove heap_map")
    wanted = {"lib heap_map", "lib heap_commands", "run pcompact", "test tool_tests"} | {
        f"test {name}" for name in crate_names() if name.endswith("_tests") and "heap_map" in below_of(name)}
    it.check(wanted <= set(re.findall(r"\w+ \w+", calls)), f"prove heap_map: {calls} and not {wanted}")
    said, _ = it.call([copy / "prove", "no_crate"], 2, "prove no_crate")
    it.check("no crate no_crate" in said, f"an unknown crate: {said!r}")
    it.call([copy / "prove", "--nothing"], 2, "prove with a wrong word")
    it.call([copy / "prove"], 2, "prove without the kit", kit=False)


def shipped(it: Launcher, copy: pathlib.Path, name: str) -> pathlib.Path:
    """What a clone of this copy has: its files but for what was built."""
    clone = it.room / name
    shutil.copytree(copy, clone, ignore=shutil.ignore_patterns("out"))
    return clone


def try_statements(it: Launcher) -> None:
    """The kits whose rt is made of a module that is known: libraries keep their statements alone. Else rt proves them."""
    module = it.kit / "rtlib.py"
    module.write_text(MODULE)
    copy = it.repository("statements")
    libraries = [name for name in program_crates() if name != "pcompact"]
    for kit in KITS:
        it.name_kit(kit)
        said, calls = it.call([copy / "prove"], 0, f"libraries that keep statements, by {kit}")
        it.check(calls == " ".join(sorted(["run pcompact", *(f"statements {name}" for name in libraries)])), f"proved by {kit}: {calls}")
        it.check(TAKES_LONGER not in (copy / "out/pcompact/build.log").read_text(), f"what the log says of {kit}")
    it.call([copy / "prove", "--unpack"], 0, "unpacking them")
    marks = {name: (copy / "crates" / name / "out/rlib/stamp").read_text() for name in libraries}
    it.check(set(marks.values()) == {"marked"}, f"marks of libraries: {marks}")
    change(copy, "fill", "Changed.")
    (it.kit / "fails-fill").touch()
    said, calls = it.call([copy / "prove"], 1, "a library that isn't proved")
    it.check("the crate fill is not proved" in said and calls == "statements fill", f"a library that isn't proved: {said!r}, {calls}")
    (it.kit / "fails-fill").unlink()
    module.write_text("")
    said, calls = it.call([copy / "prove"], 0, "a module without the functions")
    it.check(calls == built(["fill", "collector", "collection_commands", "pcompact"]), f"proved then: {calls}")
    module.write_text(MODULE)
    try_other_kits(it, copy)
    module.unlink()
    it.name_kit(KITS[1])
    said, calls = it.call([sys.executable, *BUILD, "statements"], 0, "a known kit without its module", cwd=copy / "crates/raw_region")
    it.check(said.startswith(TAKES_LONGER) and calls == "lib raw_region", f"a known kit without its module: {said!r}, {calls!r}")
    it.name_kit("stand-in")


def try_other_kits(it: Launcher, copy: pathlib.Path) -> None:
    """A kit that was never tried, whose module has all the functions: rt is called, and a line says so."""
    crate = copy / "crates/raw_region"
    for kit in OTHER_KITS:
        it.name_kit(kit)
        for verb, called in (("statements", "lib"), ("check", "check"), ("lib", "lib")):
            said, calls = it.call([sys.executable, *BUILD, verb], 0, f"{verb} by the kit {kit!r}", cwd=crate)
            it.check(said == f"{TAKES_LONGER}: the kit {kit} was never tried\n" and calls == f"{called} raw_region",
                     f"{verb} by the kit {kit!r}: {said!r}, rt is called for {calls!r}")
    it.name_kit(OTHER_KITS[0])
    _, calls = it.call([copy / "prove"], 0, "prove by a kit that was never tried")
    it.check(calls == built(program_crates()), f"proved by a kit that was never tried: {calls}")
    log = (copy / "out/pcompact/build.log").read_text().splitlines()
    line = f"{TAKES_LONGER}: the kit {OTHER_KITS[0]} was never tried"
    it.check(log == [line] * len(program_crates()), f"what the log says of a kit that was never tried: {set(log)}")


def try_dist(it: Launcher, copy: pathlib.Path) -> None:
    """The program that comes with the repository."""
    said, _ = it.call([copy / "prove"], 0, "prove without dist")
    it.check("dist/pcompact is NOT the program of these sources" in said, f"no dist: {said!r}")
    said, calls = it.call([copy / "prove", "--renew"], 0, "prove --renew")
    wanted = " ".join(f"lib {name}" for name in ("caller_heap", "coded_marking", "coded_redirection", "object_coding", "pcompact_c"))
    it.check(calls == wanted and said.count("byte for byte") == 2, f"--renew calls {calls!r} and says {said!r}")
    said, calls = it.call([copy / "prove", "--renew"], 0, "prove --renew again")
    it.check(calls == "" and said.count("byte for byte") == 2, f"--renew again calls {calls!r} and says {said!r}")
    clone = shipped(it, copy, "clone")
    it.runs(clone / "pcompact", "a fresh clone without the kit", NOTE, kit=False)
    it.runs(clone / "pcompact", "its second call", kit=False)
    it.runs(shipped(it, copy, "clone 2") / "pcompact", "a fresh clone with the kit", NOTE)
    said, calls = it.call([clone / "prove"], 0, "prove in a clone")
    it.check("byte for byte" in said and calls == built(program_crates()), f"prove in a clone: {said!r} {calls}")
    it.runs(clone / "pcompact", "the call after it")
    try_packed(it, clone)
    # Another program with a stamp of these sources.
    program = bytearray((copy / "dist/pcompact").read_bytes()) + b"\0"
    (clone / "dist/pcompact").write_bytes(program)
    said, _ = it.call([clone / "prove"], 3, "prove beside another dist")
    it.check("dist/pcompact is another program" in said, f"another dist: {said!r}")
    stamp = (clone / "dist/stamp").read_text()
    (clone / "dist/stamp").write_text(stamp.replace("kit stand-in", "kit another"))
    said, _ = it.call([clone / "prove"], 0, "prove beside a dist of another kit")
    it.check("by the kit another, and this is stand-in" in said, f"a dist of another kit: {said!r}")


def try_library(it: Launcher, copy: pathlib.Path) -> None:
    """The library that comes with the repository, beside a program that no change of it touches."""
    clone = shipped(it, copy, "library")
    library, stamp = clone / "dist/libpcompact.a", clone / "dist/stamp"
    members = subprocess.run(["ar", "t", library], capture_output=True, text=True).stdout.split()
    it.check(sorted(members) == ["heap.o", "in_place.o", "lent.o", "part.o", "segments.o", "slide.o"], f"the library has {members}")
    finds(it, clone, "dist", "a fresh clone")
    said, calls = it.call([clone / "prove", "pcompact_c"], 0, "prove pcompact_c in a clone")
    it.check("is dist/libpcompact.a, byte for byte" in said and "dist/pcompact" not in said, f"prove pcompact_c: {said!r}")
    it.check("lib pcompact_c" in calls and "run" not in calls, f"prove pcompact_c calls {calls!r}")
    finds(it, clone, "out/pcompact_c", "a library that was built here")
    shutil.rmtree(clone / "out")
    whole = library.read_bytes()
    library.write_bytes(whole[:-1] + bytes([whole[-1] ^ 1]))
    finds(it, clone, "isn't the library of its stamp", "a bit of the library flipped")
    it.runs(clone / "pcompact", "beside a library with a bit flipped", NOTE, kit=False)
    library.write_bytes(whole)
    text = stamp.read_text()
    stamp.write_text("".join(line for line in text.splitlines(True) if line.split()[0] not in ("library", "header", "around")))
    finds(it, clone, "dist/libpcompact.a wasn't built from these sources", "a stamp of the program alone")
    stamp.write_text(text)
    unbuilt = "wasn't built from these sources"
    for name, why in (("pcompact.h", "dist/pcompact.h isn't c/pcompact.h"), ("heap.c", unbuilt), ("in_place.c", unbuilt), ("lent.c", unbuilt),
                      ("segments.c", unbuilt), ("slide.c", unbuilt)):
        with (clone / "c" / name).open("a") as file:
            file.write("/* More. */\n")
        finds(it, clone, why, f"c/{name} changed")
    said, calls = it.call([clone / "prove", "pcompact_c"], 0, "prove pcompact_c after a change of c/")
    it.check("dist/libpcompact.a is NOT the library of these sources" in said, f"after a change of c/: {said!r}")
    said, _ = it.call([clone / "prove", "--take", *built_here(copy), "--renew"], 0, "prove --take and --renew")
    it.check(said.count("byte for byte") == 2, f"--take and --renew: {said!r}")
    library.write_bytes(whole + b"\n")
    said, _ = it.call([clone / "prove", "pcompact_c"], 3, "prove pcompact_c beside another dist")
    it.check("dist/libpcompact.a is another library" in said, f"another dist/libpcompact.a: {said!r}")


def built_here(copy: pathlib.Path) -> list[pathlib.Path]:
    """What rt builds of program and library."""
    return [copy / "crates/pcompact/out/pcompact", copy / "crates/pcompact_c/out/libpcompact_c.a"]


def finds(it: Launcher, copy: pathlib.Path, wanted: str, what: str) -> None:
    """Asks sources.sh for the library: a folder of the copy, or why there is none."""
    words = ["sh", "-c", 'top=$1; . "$top/sources.sh"; library_path', "sh", copy]
    said = subprocess.run(words, capture_output=True, text=True)
    folder, why = said.stdout.strip(), said.stderr.strip()
    it.check(folder == f"{copy}/{wanted}" or (folder == "" and why.endswith(wanted)), f"{what}: the library is {folder!r} {why!r}")


def try_packed(it: Launcher, clone: pathlib.Path) -> None:
    """Libraries are packed once all is proved, and come back as they were."""
    libraries = [clone / "crates" / name / "out" / "rlib" for name in program_crates() if name != "pcompact"]
    it.check(not any(library.exists() for library in libraries), "a library isn't packed")
    _, calls = it.call([clone / "prove"], 0, "prove where libraries are packed")
    it.check(calls == "", f"proved again: {calls}")
    _, calls = it.call([clone / "prove", "--unpack"], 0, "prove --unpack")
    stamps = [library / "stamp" for library in libraries]
    it.check(calls == "" and all(stamp.is_file() and stamp.read_text() == "stamp\n" for stamp in stamps), "a library doesn't come back")
    _, calls = it.call([clone / "prove"], 0, "prove after that")
    it.check(calls == "" and not any(library.exists() for library in libraries), f"packed again: {calls}")


def try_wrong_dist(it: Launcher, copy: pathlib.Path) -> None:
    """A damaged program, a stamp of other sources, no run bit, another machine: none is run."""
    clone = shipped(it, copy, "wrong")
    program = (clone / "dist/pcompact").read_bytes()
    stamp = (clone / "dist/stamp").read_text()
    half = len(program) // 2
    (clone / "dist/pcompact").write_bytes(program[:half] + bytes([program[half] ^ 1]) + program[half + 1:])
    it.refuses(clone / "pcompact", "dist/pcompact isn't the program of its stamp", "a bit flipped")
    (clone / "dist/pcompact").write_bytes(program)
    it.runs(clone / "pcompact", "the bit flipped back", NOTE, kit=False)
    (clone / "dist/stamp").write_text(re.sub("sources .*", f"sources {'0' * 64}", stamp))
    it.refuses(clone / "pcompact", "dist/pcompact wasn't built from these sources", "a stamp of other sources")
    (clone / "dist/stamp").write_text(stamp)
    (clone / "dist/pcompact").chmod(0o644)
    it.refuses(clone / "pcompact", "dist/pcompact doesn't start on this machine", "no run bit")
    (clone / "dist/pcompact").chmod(0o755)
    (clone / "dist/stamp").unlink()
    it.refuses(clone / "pcompact", "dist/pcompact wasn't built from these sources", "no stamp")
    shutil.copy(it.kit / "dead", clone / "dist/pcompact")
    total = subprocess.run(["sha256sum", clone / "dist/pcompact"], capture_output=True, text=True).stdout.split()[0]
    (clone / "dist/stamp").write_text(re.sub("program .*", f"program {total}", stamp))
    it.refuses(clone / "pcompact", "needs Linux on x86-64 with the GNU C library", "a program that doesn't start")
    (clone / "dist/pcompact").write_bytes(program[:half])
    (clone / "dist/stamp").write_text(stamp)
    said, calls = it.call([clone / "pcompact", "a word"], 3, "a program that is cut, with the kit")
    it.check(calls == built(program_crates()), f"a program that is cut isn't proved here: {calls}")


def try_read_only(it: Launcher, copy: pathlib.Path) -> None:
    """Another user, who may write neither here nor, the second time, at home."""
    clone = shipped(it, copy, "read only")
    subprocess.run(["chmod", "-R", "a-w,a+rX", clone], check=True)
    it.room.chmod(0o755)
    as_other = ["setpriv", "--reuid=65534", "--clear-groups"] if os.geteuid() == 0 else []
    home = it.room / "home of another"
    home.mkdir()
    home.chmod(0o777)
    for what, env, notes in (("with a home", {"HOME": str(home)}, [NOTE, ""]), ("without one", {"HOME": "/nonexistent"}, [NOTE, NOTE])):
        for note in notes:
            said, _ = it.call([*as_other, clone / "pcompact", "x"], 3, f"read-only, {what}", kit=False, env=env)
            it.check(said == f"1 x in {it.room} with {TUNABLES}\n{note}", f"read-only, {what}: {said!r}")
    subprocess.run(["chmod", "-R", "u+w", clone], check=True)


def try_tunables(it: Launcher, copy: pathlib.Path) -> None:
    it.runs(copy / "pcompact", "GLIBC_TUNABLES empty", tunables="", env={"GLIBC_TUNABLES": ""})
    it.runs(copy / "pcompact", "GLIBC_TUNABLES set", tunables="glibc.malloc.check=3", env={"GLIBC_TUNABLES": "glibc.malloc.check=3"})


def main() -> int:
    with tempfile.TemporaryDirectory() as room:
        it = Launcher(pathlib.Path(room).resolve())
        copy = try_first_calls(it)
        try_paths(it, copy)
        try_times(it, copy)
        try_in_place(it, copy)
        try_copies(it, copy)
        try_links(it, copy)
        try_tools(it, copy)
        try_changes(it, copy)
        try_failures(it, copy)
        try_changes_meanwhile(it, copy)
        try_above(it, copy)
        try_statements(it)
        try_dist(it, copy)
        try_library(it, copy)
        try_wrong_dist(it, copy)
        try_limits(it, copy)
        try_cost(it, copy)
        try_read_only(it, copy)
        try_tunables(it, copy)
    print(f"{it.count - it.wrong} passed, {it.wrong} failed")
    return 1 if it.wrong else 0


if __name__ == "__main__":
    sys.exit(main())
