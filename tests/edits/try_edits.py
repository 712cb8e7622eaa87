#!/usr/bin/env python3
"""Tries wrong bodies, each of which the prover must refuse: the edits of crates/CRATE/must-fail and of tests/edits/CRATE.

`rt must-fail` checks a crate once for each edit. Here a check has many of them, each in a function of its own: a proof
rests on the contracts of what the function calls and on no other body, so an edit changes no goal but its own function's.
An edit counts as refused where the check names a goal of that function that isn't proved. Two edits of one function go
into two checks. What a check with others doesn't settle, or lies outside of any function, is tried alone, by the rules of
`rt must-fail`. It works on copies of the repository, and begins with what earlier checks have kept in crates/CRATE/out.

With --fits it proves nothing, and only looks whether the text of each edit still stands once in its file.

usage: tests/edits/try_edits.py [--fits] [--jobs N] [--lanes N] [CRATE..]
"""
import argparse
import concurrent.futures
import os
import pathlib
import re
import shutil
import subprocess
import sys
import tempfile

TOP = pathlib.Path(__file__).resolve().parents[2]
# The line of a check that judged what it was given.
VERDICT = re.compile(r"^(logic=not-proved|only=\d+ proved=\d+)", re.MULTILINE)
# A proof file that names what an edit took away: such a line says nothing of the contract.
NAMES_WHAT_IS_GONE = re.compile(r"has no field|is not in scope|has no `|was not admitted")


class Edit:
    """A wrong body: which texts of which file it replaces, as its lines `file:`, `old:` and `new:` say."""

    def __init__(self, path):
        self.path = path
        self.name = path.stem
        self.changes = []
        file, old = None, None
        for line in path.read_text().splitlines():
            if line.startswith("file: "):
                file = line.removeprefix("file: ").strip()
            elif line.startswith("old: "):
                old = line.removeprefix("old: ")
            elif line.startswith("new:"):
                self.changes.append((file, old, line.removeprefix("new:").removeprefix(" ")))

    def places(self, texts):
        """Where its old texts stand in these texts of files, each with the new one, or None where one doesn't stand once."""
        found = []
        for file, old, new in self.changes:
            if texts.get(file, "").count(old) != 1:
                return None
            found.append((file, texts[file].index(old), old, new))
        return found

    def apply(self, texts):
        """Makes its changes in these texts of files, one after the other."""
        for file, old, new in self.changes:
            if texts.get(file, "").count(old) != 1:
                raise ValueError(f"an old text stands {texts.get(file, '').count(old)} times in {file}: {old.strip()}")
            texts[file] = texts[file].replace(old, new)

    def functions(self, sources):
        """The functions that it changes, or None where it changes something else."""
        places = self.places(sources.texts)
        if places is None:
            return None
        found = {sources.function_at(file, sources.texts[file][:at].count("\n") + 1) for file, at, _, _ in places}
        return None if None in found else found


def edited(texts, edits):
    """These texts of files with the changes of several edits, each where its old text stands now."""
    texts = dict(texts)
    places = [place for edit in edits for place in edit.places(texts)]
    for file, at, old, new in sorted(places, key=lambda place: place[1], reverse=True):
        texts[file] = texts[file][:at] + new + texts[file][at + len(old) :]
    return texts


class Sources:
    """The code of a crate, and where its functions stand."""

    def __init__(self, folder):
        self.texts = {str(it.relative_to(folder)): it.read_text() for it in sorted(folder.glob("src/**/*.rt"))}
        self.spans = {file: list(spans_of(text)) for file, text in self.texts.items()}

    def function_at(self, file, line):
        """The file, the span and the name of the function whose body has this line."""
        for first, body, last, name in self.spans[file]:
            if body <= line <= last:
                return file, first, last, name
        return None


def module_of(file):
    """The path of the module that a file is, which is nothing for the root."""
    return "::".join(pathlib.PurePath(file).with_suffix("").parts[1:]).removesuffix("lib").removesuffix("main")


def spans_of(text):
    """Of each function its first line, with attributes, that of its body, its last line and its name. rt fmt lays the text out."""
    lines = text.split("\n")
    for at, line in enumerate(lines):
        head = re.match(r"( *)(?:pub(?:\([a-z]+\))? )?(?:const )?fn (\w+)", line)
        if not head:
            continue
        indent, name = head.groups()
        end = next((it for it in range(at, len(lines)) if lines[it] == indent + "}"), None)
        opens = next((it for it in range(at, len(lines)) if lines[it] == indent + "{" or lines[it].endswith(") {") or re.search(r"-> .* \{$", lines[it])), None)
        first = at
        while lines[first - 1].lstrip().startswith(("#[", "///")):
            first -= 1
        if end is not None and opens is not None and opens < end:
            yield first + 1, opens + 2, end + 1, name


def link_or_copy(source, target):
    """Gives a file of kept work a second name: a check replaces such a file, and changes none."""
    if "/rlib/" in source or source.endswith(".oantt"):
        os.link(source, target)
    else:
        shutil.copy2(source, target)


class Trial:
    """A copy of the repository in which a crate's edits are tried."""

    def __init__(self, crate, room, jobs):
        self.crate = crate
        self.jobs = jobs
        self.room = pathlib.Path(room)
        for part in ("crates.txt", "HANDLES"):
            shutil.copy2(TOP / part, self.room / part)
        for it in (TOP / "crates").iterdir():
            shutil.copytree(it, self.room / "crates" / it.name, ignore=shutil.ignore_patterns("out", "must-fail"))
            kept = ["rlib", "incremental"] if it.name == crate else ["rlib"]
            for part in kept:
                if (it / "out" / part).is_dir():
                    copy = self.room / "crates" / it.name / "out" / part
                    shutil.copytree(it / "out" / part, copy, copy_function=link_or_copy)
        self.folder = self.room / "crates" / crate
        self.sources = Sources(self.folder)

    def check(self, texts, files=()):
        """What a check says of the crate with these texts, or of the modules of these files and what they call, and its status."""
        for file, text in texts.items():
            (self.folder / file).write_text(text)
        words = ["rt", "check", "--jobs", str(self.jobs)]
        modules = [module_of(file) for file in files]
        if "" not in modules:
            words += [word for it in modules for word in ("--only", it)]
        ran = subprocess.run(words, cwd=self.folder, stdin=subprocess.DEVNULL, capture_output=True, text=True, errors="replace")
        return ran.stdout + ran.stderr, ran.returncode

    def refused(self, edit, said):
        """The line by which a check of several edits refuses this one, if it does."""
        (file, first, last, name), = edit.functions(self.sources)
        module = module_of(file).replace("::", "/")
        proofs = re.compile(rf"\./proofs/{module}/(?:[^ :]*/)?{name}/\w+\.antt:\d+:\d+: error")
        # A proof file's path has no file's line: it says which function it is of where one alone has the name.
        is_told = [it[3] for it in self.sources.spans[file]].count(name) == 1
        for line in said.split("\n"):
            place = re.match(r"(?:note: )?" + re.escape(file) + r":(\d+):\d+: ", line)
            if place and first <= int(place[1]) <= last and " warning: " not in line:
                return line
            if is_told and proofs.match(line) and not NAMES_WHAT_IS_GONE.search(line):
                return line
        return None

    def in_rounds(self, edits):
        """Tries edits together, at most one of a function in a check. Gives those that are refused, and prints by what."""
        refused, left = set(), list(edits)
        while left:
            taken, batch = set(), []
            for edit in left:
                changed = edit.functions(self.sources)
                if not taken & changed:
                    batch.append(edit)
                    taken |= changed
            left = [it for it in left if it not in batch]
            files = sorted({file for edit in batch for file, _, _ in edit.changes})
            said, _ = self.check(edited(self.sources.texts, batch), files)
            for edit in batch:
                line = self.refused(edit, said)
                if line:
                    refused.add(edit)
                    print(f"{self.crate} {edit.name}: refused with others: {line[:140]}", flush=True)
        return refused

    def alone(self, edit):
        """The line by which a check of this edit alone refuses it, or None, or no text where a check ends without a verdict. What
        its modules pass, or have no function for, others may refuse."""
        texts = dict(self.sources.texts)
        edit.apply(texts)
        said, status = self.check(texts, sorted({file for file, _, _ in edit.changes}))
        if status == 0 or not VERDICT.search(said):
            said, status = self.check(texts)
        if status == 0:
            return None
        if status != 1 or not VERDICT.search(said):
            return ""
        lines = [it for it in said.split("\n") if re.match(r"(note: )?\S+:\d+:\d+: ", it)]
        own = [it for it in lines if it.startswith("note: src/") or ": error" in it and not NAMES_WHAT_IS_GONE.search(it)]
        return own[0] if own else None


def edits_of(crate):
    """The edits of a crate."""
    folders = (TOP / "crates" / crate / "must-fail", TOP / "tests" / "edits" / crate)
    return [Edit(path) for folder in folders for path in sorted(folder.glob("*.edit"))]


def fit_crate(crate):
    """Looks whether each edit of a crate can be made, and prints which can't. Gives how many can, and how many can't."""
    texts = Sources(TOP / "crates" / crate).texts
    edits, bad = edits_of(crate), 0
    for edit in edits:
        try:
            edit.apply(dict(texts))
        except ValueError as why:
            bad += 1
            print(f"{crate} {edit.name}: BAD EDIT: {why}", flush=True)
    return len(edits) - bad, bad


def try_crate(crate, jobs):
    """Tries all edits of a crate, and prints what came of each. Gives how many are refused, and how many aren't."""
    edits = edits_of(crate)
    if fit_crate(crate)[1]:
        return 0, len(edits)
    with tempfile.TemporaryDirectory(prefix="try-edits-") as room:
        trial = Trial(crate, room, jobs)
        said, status = trial.check(trial.sources.texts)
        if status != 0:
            print(f"{crate}: not proved without an edit: {said[-600:]}", flush=True)
            return 0, len(edits)
        together = [it for it in edits if len(it.functions(trial.sources) or ()) == 1]
        refused = trial.in_rounds(together)
        for edit in edits:
            if edit not in refused:
                line = trial.alone(edit)
                words = f"refused alone: {line[:140]}" if line else "NOT refused" if line is None else "NOT tried: no verdict"
                print(f"{crate} {edit.name}: {words}", flush=True)
                refused |= {edit} if line else set()
        return len(refused), len(edits) - len(refused)


def main():
    parser = argparse.ArgumentParser(description=__doc__, formatter_class=argparse.RawDescriptionHelpFormatter)
    parser.add_argument("crates", nargs="*", metavar="CRATE")
    parser.add_argument("--fits", action="store_true", help="prove nothing: look whether each edit can be made")
    parser.add_argument("--jobs", type=int, default=1, metavar="N", help="jobs of each check")
    parser.add_argument("--lanes", type=int, default=os.cpu_count(), metavar="N", help="crates at a time")
    words = parser.parse_args()
    named = {it.parent.parent.name for it in TOP.glob("crates/*/must-fail/*.edit")} | {it.parent.name for it in TOP.glob("tests/edits/*/*.edit")}
    if not words.fits:
        subprocess.run([TOP / "prove", "--unpack"], check=True)
    crates = words.crates or sorted(named)
    unknown = [it for it in crates if it not in named]
    if unknown:
        print(f"no edits: {' '.join(unknown)}")
        return 2
    passed = failed = 0
    with concurrent.futures.ThreadPoolExecutor(words.lanes) as pool:
        runs = [pool.submit(fit_crate, it) if words.fits else pool.submit(try_crate, it, words.jobs) for it in crates]
        for done in concurrent.futures.as_completed(runs):
            good, bad = done.result()
            passed += good
            failed += bad
    print(f"{passed} passed, {failed} failed")
    return 1 if failed else 0


if __name__ == "__main__":
    sys.exit(main())
