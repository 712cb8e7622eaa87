#!/usr/bin/env python3
"""Computes which definitions one must believe to trust the contracts of some calls.

It begins with the names in the calls' `requires` and `ensures` and with the types that they are handed and return, finds
their definitions in crates/*/specs and crates/*/src, and follows what those use. Of a type with a model that is the model's
value and view, of any other each field that some definition or clause asks for. Facts that a type keeps (`ghost invariant`,
ghost fields) aren't followed, as nothing that a call promises says them. The kit's own names are counted and not followed.

CRATE::CALL#CLAUSE is one clause of a call's `ensures`, without what the call requires: the prover checks that at each call.

usage: tests/build/definitions.py [--list] [CRATE::CALL[#CLAUSE] ..]   counts those of these calls, or of the headline's
       tests/build/definitions.py --promises [--list]                  counts those of all calls that docs/PROMISES.md names
       tests/build/definitions.py --check                              looks whether docs/DEFINITIONS.md has those of the headline
       tests/build/definitions.py --write                              puts their counts into the page, and checks it
"""
import argparse
import pathlib
import re
import sys

sys.dont_write_bytecode = True
sys.path.insert(0, str(pathlib.Path(__file__).resolve().parents[2]))
from tests.support.promise_rows import promised_calls
from tests.support.source_files import read_call, read_type
from tests.support.spec_files import TOP, Definition, Key, read_specs

PAGE = "docs/DEFINITIONS.md"
BOARD = "claim_board::RegionBoard::"
# The clauses that carry the three parts of the headline, and the calls that carry one with all that they say.
HEADLINE = {
    "claims": [f"{BOARD}new#passes", *(f"{BOARD}{name}#entry" for name in ("claim", "look", "drain", "complete", "settle", "poll")),
               f"{BOARD}meet", f"{BOARD}finish#history"],
    "regions": [f"{BOARD}claim#granted"],
    "result": ["collector::collect#image", "collector::collect#legal"],
}
# The clauses that carry what is promised besides of histories, words, bytes, records and verdicts.
FURTHER = ["scheduler::legal_histories_are_orderly", "history::drained_before_written", "collector::collect_stream#text",
           "collector::collect_stream#written", "collector::collect_stream#nothing_yet", "collector::record#image",
           "collector::record#schedule", "verification::verify"]


def find_definition(key: Key) -> Definition | None:
    """The definition with this key; None for a type of which nothing is to be believed."""
    if key.file.endswith(".rt"):
        return read_type(key)
    found = read_specs(key.file)
    if key.name not in found:
        raise ValueError(f"{key.file} has no definition {key.name}")
    return found[key.name]


def uses_of(definition: Definition, fields: set[str]) -> set:
    """What a definition uses, where these fields are asked for."""
    return definition.uses.union(*(uses for name, uses in definition.by_field.items() if name in fields))


def reach(start: list[Definition], fields: set[str]) -> tuple[dict[Key, Definition], set[str]]:
    """What these definitions lead to, and which names of the kit."""
    found: dict[Key, Definition] = {}
    kit, waiting = set(), list(start)
    while waiting:
        for it in uses_of(waiting.pop(), fields):
            if isinstance(it, str):
                kit.add(it)
            elif it not in found and (definition := find_definition(it)) is not None:
                found[it] = definition
                waiting.append(definition)
    return found, kit


def order(needed: dict, rank) -> list:
    """The keys, by rank as far as each can stand behind those that it needs."""
    found: list = []

    def add(key, above: tuple) -> None:
        for other in sorted(needed[key] & needed.keys() - {key, *above}, key=rank):
            add(other, (*above, key))
        if key not in found:
            found.append(key)

    for key in sorted(needed, key=rank):
        add(key, ())
    return found


def rank(file: str) -> tuple[int, str]:
    """Where a file stands from the bottom up: by its crate's place in crates.txt, and then by name."""
    lines = (TOP / "crates.txt").read_text().splitlines()
    crates = [re.match(r"\w*", line)[0] for line in lines]
    return crates.index(file.split("/")[1]), file


class Closure:
    """The definitions that the contracts of some calls stand on, in reading order, and the names of the kit that they use."""

    def __init__(self, calls: list[str]):
        start = [read_call(call) for call in calls]
        self.fields: set[str] = set()
        while True:
            found, self.kit = reach(start, self.fields)
            asked = set().union(*(it.fields for it in [*start, *found.values()]))
            if asked == self.fields:
                break
            self.fields = asked
        self.found = found
        self.files = order({it.key.file: self.files_used_in(it.key.file) for it in found.values()}, rank)
        self.definitions = [it for file in self.files for it in self.definitions_in(file)]

    def used(self, definition: Definition) -> set[Key]:
        """Those that a definition uses."""
        return uses_of(definition, self.fields) & self.found.keys()

    def files_used_in(self, file: str) -> set[str]:
        """The files whose definitions those of this file use."""
        return {used.file for it in self.found.values() if it.key.file == file for used in self.used(it)}

    def definitions_in(self, file: str) -> list[Definition]:
        """Those of a file, each behind those that it uses."""
        inside = {key: self.used(it) for key, it in self.found.items() if key.file == file}
        return [self.found[key] for key in order(inside, lambda key: self.found[key].line)]

    def counts(self) -> tuple[int, int, int, int, int]:
        """How many definitions and lines these are, how many of the lines in specs/, how many files, and how many names of
        the kit."""
        in_specs = sum(it.lines for it in self.definitions if it.key.file.endswith(".antt"))
        return len(self.definitions), sum(it.lines for it in self.definitions), in_specs, len(self.files), len(self.kit)


def print_closure(closure: Closure, listed: bool) -> None:
    """Prints the counts and, where asked, the list."""
    types = sum(it.key.file.endswith(".rt") for it in closure.definitions)
    print("{} definitions, {} lines, {} of them in specs, {} files; {} names of the kit".format(*closure.counts()))
    print(f"{types} of the definitions are types of the program")
    for file in closure.files if listed else ():
        print(f"\n{file}")
        for it in closure.definitions_in(file):
            print(f"{it.line:5} {it.key.name}: {it.lines} lines")


class Page:
    """What docs/DEFINITIONS.md says: the definitions of its tables, and the calls and counts of each part."""

    def __init__(self, text: str):
        self.definitions: list[Key] = []
        self.calls: dict[str, set[str]] = {}
        self.counts: dict[str, tuple[int, ...]] = {}
        file = ""
        for row in re.findall(r"(?m)^\|(.*)\|$", text):
            cells = row.split("|")
            numbers = [int(cell) for cell in cells[-5:] if cell.strip().isdigit()]
            if len(numbers) == 5:
                self.counts[cells[0]] = tuple(numbers)
                self.calls[cells[0]] = set(re.findall(r"([\w#]+)`", cells[2]))
            elif heading := re.fullmatch(r"\[[\w.]+\]\(\.\./(.*)\)", cells[0].strip()):
                file = heading[1]
            else:
                for name, linked in re.findall(r"`([^`]+)`(?:\]\(\.\./([^)]*)\))?", cells[0]):
                    self.definitions.append(Key(linked or file, name))


def wrong_names(page: Page, closure: Closure) -> list[str]:
    """Which definitions the page lacks, has without need, has twice, or has before one that they use."""
    place = {key: number for number, key in enumerate(page.definitions)}
    wrong = [f"{key.name} of {key.file} stands there twice" for key in place if page.definitions.count(key) > 1]
    wrong += [f"{key.name} of {key.file} isn't there" for key in closure.found if key not in place]
    wrong += [f"{key.name} of {key.file} isn't needed, or isn't there" for key in place if key not in closure.found]
    return wrong + [f"{key.name} stands before {used.name}, which it uses" for key, it in closure.found.items()
                    for used in closure.used(it) if key in place and place.get(used, -1) > place[key]]


def wrong_counts(page: Page, closures: dict[str, Closure]) -> list[str]:
    """Which counts of the page aren't those of the closures."""
    return [f"{name}: the page says {page.counts.get(name)}, and they are {closure.counts()}"
            for name, closure in closures.items() if page.counts.get(name) != closure.counts()]


def wrong_calls(page: Page) -> list[str]:
    """Of which parts the page names other calls."""
    parts = HEADLINE | {"with further ones": FURTHER}
    return [f"{name}: the page names other calls than {', '.join(calls)}" for name, calls in parts.items()
            if page.calls.get(name) != {call.split("::")[-1] for call in calls}]


def write_counts(closures: dict[str, Closure]) -> None:
    """Puts the counts of each part into its row of the page."""
    text = (TOP / PAGE).read_text()
    for name, closure in closures.items():
        counts = "".join(f"{count}|" for count in closure.counts())
        text = re.sub(rf"(?m)^(\|{name}\|.*\|)(?:\d+\|){{5}}$", rf"\g<1>{counts}", text)
    (TOP / PAGE).write_text(text)


def check_page(write: bool) -> int:
    """Compares the page with the headline's definitions, after putting in their counts where asked. 1 where they differ."""
    closures = {name: Closure(calls) for name, calls in HEADLINE.items()}
    closures |= {"all": Closure(all_calls()), "whole contracts": Closure(whole_calls()),
                 "with further ones": Closure(all_calls() + FURTHER), "promises": Closure(promised_calls())}
    if write:
        write_counts(closures)
    page = Page((TOP / PAGE).read_text())
    wrong = wrong_names(page, closures["all"]) + wrong_counts(page, closures) + wrong_calls(page)
    for it in wrong:
        print(f"{PAGE}: {it}")
    checks = len(page.definitions) + len(closures) + len(HEADLINE) + 1
    print(f"{max(checks - len(wrong), 0)} passed, {len(wrong)} failed")
    return 1 if wrong else 0


def all_calls() -> list[str]:
    """The calls and clauses of all parts of the headline."""
    return [call for calls in HEADLINE.values() for call in calls]


def whole_calls() -> list[str]:
    """The same calls with all that they require and promise."""
    return list(dict.fromkeys(call.split("#")[0] for call in all_calls()))


def main() -> int:
    words = argparse.ArgumentParser()
    words.add_argument("calls", nargs="*", metavar="CRATE::CALL[#CLAUSE]")
    words.add_argument("--promises", action="store_true")
    words.add_argument("--check", action="store_true")
    words.add_argument("--write", action="store_true")
    words.add_argument("--list", action="store_true")
    asked = words.parse_args()
    if asked.check or asked.write:
        return check_page(asked.write)
    print_closure(Closure(promised_calls() if asked.promises else asked.calls or all_calls()), asked.list)
    return 0


if __name__ == "__main__":
    sys.exit(main())
