"""Reads which calls the tables of docs/PROMISES.md name as contracts."""
import re

from tests.support.source_files import calls_of
from tests.support.spec_files import TOP

PAGE = "docs/PROMISES.md"
# A link to a crate's file, and the names that follow it as its type's calls: [`Region`](..): `new`, `len`.
NAMES = r"`[\w:]+`(?:, `[\w:]+`)*"
LINK = re.compile(rf"\[({NAMES})\]\(\.\./crates/(\w+)/[^)]*\)(?:: ({NAMES}))?")
# Whose calls a cell names that leads to no file of one.
COMMANDS = "heap_commands"


def contract_cells(text: str) -> list[str]:
    """The cells with contracts, of all tables of promises."""
    section = text.split("\n## Promise, contract, state")[1].split("\n## ")[0]
    return [row.split("|")[1] for row in re.findall(r"(?m)^\|(.*)\|$", section) if row.count("|") == 2 and "`" in row]


def calls_linked(crate: str, names: str, more: str, has_queries: bool) -> list[str]:
    """The calls that a link names: of a type alone, or one whose queries count, all."""
    if more:
        return [call for name in re.findall(r"\w+", more) for call in calls_of(crate, names.strip("`"), name)]
    found, owner = [], ""
    for name in re.findall(r"[\w:]+", names):
        *path, call = name.split("::")
        owner = "".join(path) or owner
        if call[0].isupper():
            found += calls_of(crate, call, None)
        elif has_queries:
            found += calls_of(crate, owner, None)
        else:
            found += calls_of(crate, owner, call) or calls_of(crate, None, call)
    return found


def calls_named(cell: str) -> list[str]:
    """The calls that a cell names."""
    found = [call for names, crate, more in LINK.findall(cell)
             for call in calls_linked(crate, names, more, "queries" in cell)]
    plain = re.findall(r"`(\w+)`", LINK.sub("", cell))
    return found + [call for name in plain for call in calls_of(COMMANDS, None, name)]


def promised_calls() -> list[str]:
    """All calls that the tables name."""
    text = (TOP / PAGE).read_text()
    return list(dict.fromkeys(call for cell in contract_cells(text) for call in calls_named(cell)))
