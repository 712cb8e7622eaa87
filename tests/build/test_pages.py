#!/usr/bin/env python3
"""Checks the pages: README, CONTRIBUTING and the others at the top, docs/, and the README of each folder.

- Each link leads to a file that exists, and each anchor to a heading of it. No page names a heading without a link.
- Each command of a block marked `console` prints what the page shows. A command is a line that begins with `$ `, and its
  output, standard error too, are the lines behind it. All blocks of a page run in order, in a new folder that has the
  program as ./pcompact and on PATH, examples/, docs/heap.svg, and library and header of dist/.
- No line and no cell of a table is too long, no page has more words than its budget, and no page counts by hand what grows:
  crates, commands, wrong bodies.
- What ARCHITECTURE says of the crates is what crates.txt and the sources say (architecture.py), README shows the line that the
  launcher prints in a new clone, and tests/README.md names each script.

usage: tests/build/test_pages.py [PROGRAM] [--write] [PAGE..]      (--write puts what the commands print into the pages)
"""
import argparse
import pathlib
import re
import shutil
import subprocess
import sys
import tempfile

# Finds the package `tests` from any folder, and writes nothing beside its modules.
sys.dont_write_bytecode = True
sys.path.insert(0, str(pathlib.Path(__file__).resolve().parents[2]))
from tests.build.architecture import wrong_architecture
from tests.support.program import TOP, built

# The most words of a page, and of all pages and all pages of crates together.
BUDGETS = {
    "README.md": 900, "CONTRIBUTING.md": 1300, "SECURITY.md": 950, "CHANGELOG.md": 650,
    "docs/ARCHITECTURE.md": 1800, "docs/PROMISES.md": 2600, "docs/HEAP.md": 2300, "docs/SCHEDULER.md": 3050,
    "docs/FORMATS.md": 2600, "docs/COMMANDS.md": 3220, "docs/DECISIONS.md": 3000, "docs/SPEED.md": 1250,
    "docs/COLLECTORS.md": 1230, "docs/TOUR.md": 1000, "docs/USE.md": 1000, "docs/DUMPS.md": 1700, "docs/GENERATE.md": 700,
    "docs/DEFINITIONS.md": 1100, "docs/EMBED.md": 1150, "docs/RUNTIMES.md": 200, "tests/README.md": 600,
    "bench/README.md": 300,
}
ALL_WORDS = 31_000
CRATE_WORDS = 200
CRATES_WORDS = 2_870
# The pages that aren't as this script wants them yet: it passes them over.
README_LINE, README_CELL, LINE = 160, 80, 400

FENCE = re.compile(r"(?ms)^ *```(\w*).*?\n(.*?)^ *```$")
CONSOLE = re.compile(r"(?ms)(?<=^```console\n).*?(?=^```$)")
STEP = re.compile(r"(?m)^\$ (.*)\n((?:(?!\$ ).*\n)*)")
LINK = re.compile(r"\]\(([^()\s]+)\)|^\[[^\]]+\]: (\S+)", re.MULTILINE)
REFERENCE = re.compile(r"\[([^\[\]]+)\]\[([^\[\]]*)\]|\[(`[^`\]\n]+`)\](?![(\[:])")
UNLINKED = re.compile(r"\w+\.md`?\)?,? \"[^\"]*\"")
COUNT = re.compile(r"(?i)\b(\d{2,}|ten|eleven|twelve|\w+teen|(?:twenty|thirty|forty|fifty)(?:-\w+)?) (crates|commands|wrong bodies)\b")


def anchors(text: str) -> set[str]:
    """The anchors of a page's headings, as the web gives them."""
    found: dict[str, int] = {}
    names = set()
    for heading in re.findall(r"(?m)^#+ (.*)$", FENCE.sub("", text)):
        words = re.sub(r"\[([^\]]*)\]\([^)]*\)", r"\1", heading).strip().lower()
        name = re.sub(r"[^\w\- ]", "", words).replace(" ", "-")
        names.add(name if name not in found else f"{name}-{found[name]}")
        found[name] = found.get(name, 0) + 1
    return names


def wrong_links(page: pathlib.Path, prose: str) -> list[str]:
    wrong = []
    for link in (one or other for one, other in LINK.findall(prose)):
        if re.match(r"[a-z]+:", link):
            continue
        path, _, anchor = link.partition("#")
        target = (page.parent / path).resolve() if path else page
        if not target.exists():
            wrong.append(f"the link {link} leads to no file")
        elif anchor and target.is_file() and target.suffix == ".md" and anchor not in anchors(target.read_text()):
            wrong.append(f"the link {link} leads to no heading")
    named = {name.lower() for name in re.findall(r"(?m)^\[([^\]]+)\]: ", prose)}
    plain = re.sub(r"`[^`\n]*`", lambda code: re.sub(r"[\[\]]", " ", code[0]), prose)
    for text, name, alone in REFERENCE.findall(plain):
        if (alone or name or text).lower() not in named:
            wrong.append(f"the link [{alone or name or text}] has no target")
    return wrong


def wrong_looks(name: str, text: str, prose: str) -> list[str]:
    """What is wrong with the words and lines of a page."""
    words, most = len(text.split()), BUDGETS.get(name, CRATE_WORDS)
    wrong = [f"it has {words} words, and {most} are its budget"] if words > most else []
    wrong += [f"the heading of {found} is named without a link" for found in UNLINKED.findall(prose)]
    wrong += [f"{found[0]} {found[1]}: what grows is not counted by hand" for found in COUNT.findall(prose)]
    longest = README_LINE if name == "README.md" else LINE
    for number, line in enumerate(text.splitlines(), 1):
        if len(line) > longest:
            wrong.append(f"line {number} has {len(line)} characters")
        if name == "README.md" and line.startswith("|"):
            cells = [cell.strip() for cell in line.split("|")]
            wrong += [f"line {number} has a cell of {len(cell)} characters" for cell in cells if len(cell) > README_CELL]
    if name == "README.md" and text.count("\n") > 120:
        wrong.append(f"it has {text.count(chr(10))} lines")
    return wrong


class Runs:
    """The commands of one page, in a folder of their own."""

    def __init__(self, program: pathlib.Path, folder: pathlib.Path):
        self.folder = folder
        self.passed = 0
        self.wrong: list[str] = []
        shutil.copy(program, folder / "pcompact")
        shutil.copytree(TOP / "examples", folder / "examples", ignore=shutil.ignore_patterns("target"))
        (folder / "docs").mkdir()
        shutil.copy(TOP / "docs" / "heap.svg", folder / "docs")
        (folder / "dist").mkdir()
        for name in ("libpcompact.a", "pcompact.h"):
            if (TOP / "dist" / name).exists():
                shutil.copy(TOP / "dist" / name, folder / "dist")

    def run(self, step: re.Match) -> str:
        done = subprocess.run(["sh", "-c", step[1]], cwd=self.folder, stdout=subprocess.PIPE, stderr=subprocess.STDOUT,
                              stdin=subprocess.DEVNULL, text=True, timeout=60,
                              env={"PATH": f"{self.folder}:/usr/bin:/bin", "LANG": "C.UTF-8"})
        if done.stdout == step[2]:
            self.passed += 1
        else:
            self.wrong.append(f"$ {step[1]}\nprints\n{done.stdout}and the page says\n{step[2]}")
        return f"$ {step[1]}\n{done.stdout}"

    def run_page(self, text: str) -> str:
        """The page with what its commands print."""
        return CONSOLE.sub(lambda block: STEP.sub(self.run, block[0]), text)


def find_pages() -> dict[str, pathlib.Path]:
    found = [*TOP.glob("*.md"), *TOP.glob("docs/*.md"), *TOP.glob("crates/*/README.md"), *TOP.glob("*/README.md")]
    return {str(path.relative_to(TOP)): path for path in sorted(set(found))}


def wrong_sums(pages: dict[str, pathlib.Path]) -> list[str]:
    """What is wrong with all pages together."""
    words = {name: len(path.read_text().split()) for name, path in pages.items()}
    of_crates = sum(count for name, count in words.items() if name.startswith("crates/"))
    wrong = [f"there is no {name}" for name in BUDGETS if name not in words]
    if of_crates > CRATES_WORDS:
        wrong.append(f"the pages of the crates have {of_crates} words, and {CRATES_WORDS} are their budget")
    if sum(words.values()) > ALL_WORDS:
        wrong.append(f"all pages have {sum(words.values())} words, and {ALL_WORDS} are their budget")
    return wrong


def wrong_scripts() -> list[str]:
    """What the pages leave out of the scripts."""
    said = re.search(r"(?m)^ *echo '(pcompact: .*)' >&2$", (TOP / "pcompact").read_text())[1]
    wrong = [] if said in (TOP / "README.md").read_text() else [f"README.md doesn't show the line {said}"]
    tests = (TOP / "tests" / "README.md").read_text()
    names = {name.partition(".")[0] for name in re.findall(r"`(?:\w+/)?(?:test_)?(\w+(?:\.\w+)?)[^`]*`", tests)}
    names |= {name + end for name, ends in re.findall(r"(\w+)\{([^}]*)\}", tests) for end in ends.split(",")}
    scripts = [path for path in TOP.glob("tests/*/test_*") if path.suffix in (".py", ".sh")]
    return wrong + [f"tests/README.md doesn't name {it.name}" for it in scripts if it.stem.removeprefix("test_") not in
                    {name.removeprefix("test_") for name in names}]


def main() -> None:
    words = argparse.ArgumentParser()
    words.add_argument("given", nargs="*", metavar="PROGRAM | PAGE", type=pathlib.Path)
    words.add_argument("--write", action="store_true")
    asked = words.parse_args()
    only = {it.resolve() for it in asked.given if it.suffix == ".md"}
    program = next((it for it in asked.given if it.suffix != ".md"), None) or built()
    pages = find_pages()
    passed = failed = 0

    def tell(name: str, wrong: list[str]) -> None:
        nonlocal passed, failed
        passed, failed = passed + (not wrong), failed + len(wrong)
        for it in wrong:
            print(f"{name}: {it}")

    for name, page in pages.items():
        if only and page not in only:
            continue
        text = page.read_text()
        prose = FENCE.sub("", text)
        tell(name, wrong_links(page, prose))
        tell(name, wrong_looks(name, text, prose))
        with tempfile.TemporaryDirectory() as room:
            runs = Runs(program, pathlib.Path(room))
            shown = runs.run_page(text)
        if asked.write:
            page.write_text(shown)
        tell(name, runs.wrong)
    if not only:
        tell("all pages", wrong_sums(pages))
        tell("docs/ARCHITECTURE.md", wrong_architecture())
        tell("the scripts", wrong_scripts())
    print(f"{passed} passed, {failed} failed")
    sys.exit(failed > 0 and not asked.write)


if __name__ == "__main__":
    main()
