"""What docs/ARCHITECTURE.md says of the crates, beside crates.txt and the sources: picture, table, and where raw pointers are."""
import pathlib
import re

TOP = pathlib.Path(__file__).resolve().parents[2]
# Headings of crates.txt whose crates the page leaves to others.
LEFT_OUT = ("callers", "tests")
# What every crate has of the kit.
COMMON = {"core", "std_alloc", "std_heap"}
ROW = re.compile(r"(?m)^\|\[`(\w+)`\]\(\.\./crates/(\w+)/README\.md\)\|[^|]+\|([^|]*)\|$")
RAW = re.compile(r"\*(?:mut|const)\b|\bunsafe\b(?!\(no_mangle\))")
RAW_FILES = re.compile(r"`(\w+)`\s+\(((?:`\w+\.rt`,?\s*)+)\)")


def read_layers() -> dict[str, dict[str, list[str]]]:
    """By headings the crates, each with all that it uses."""
    layers: dict[str, dict[str, list[str]]] = {}
    heading = ""
    for line in (TOP / "crates.txt").read_text().splitlines():
        if line.startswith("# "):
            heading = line[2:]
        elif line:
            head, _, uses = line.partition(":")
            layers.setdefault(heading, {})[head.split()[0]] = uses.split()
    return {heading: crates for heading, crates in layers.items() if not heading.startswith(LEFT_OUT)}


def boxes_of(picture: str) -> dict[str, tuple[int, list[str]]]:
    """By titles, which are in capitals, the boxes of a picture: the line at which each begins, and what is named in it."""
    open_boxes: dict[int, tuple[int, list[str]]] = {}
    boxes = []
    for number, line in enumerate(picture.splitlines()):
        for place in [at for at in open_boxes if line[at + 1:at + 2] == "-"]:
            boxes.append(open_boxes.pop(place))
        edges = [at for at, sign in enumerate(line) if sign in "|+"]
        for left, right in zip(edges, edges[1:]):
            if line[left + 1] != "-":
                open_boxes.setdefault(left, (number, []))[1].extend(line[left + 1:right].split())
    titled = {" ".join(word for word in words if word.isupper()): (first, words) for first, words in boxes}
    return {title: (first, [word for word in words if not word.isupper()]) for title, (first, words) in titled.items()}


def wrong_picture(text: str, layers: dict[str, dict[str, list[str]]]) -> list[str]:
    """Each heading is a box with its crates, in which each crate comes before those that it uses, above the boxes that it uses."""
    boxes = boxes_of(re.search(r"(?ms)^```text\n(\+-.*?)^```$", text)[1])
    wrong = [f"the picture's box {title} is under no heading of crates.txt" for title in boxes
             if sum(heading.upper().startswith(title) for heading in layers) != 1]
    places = {}
    for heading, crates in layers.items():
        first, drawn = next((box for title, box in boxes.items() if heading.upper().startswith(title)), (0, []))
        if set(drawn) != set(crates):
            wrong.append(f"the picture has {drawn} of {heading}, and crates.txt has {list(crates)}")
        places |= {crate: (first, place) for place, crate in enumerate(drawn)}
    for crates in layers.values():
        wrong += [f"in the picture {crate} isn't above {low}, which it uses" for crate, uses in crates.items() for low in uses
                  if low in places and crate in places and places[crate] >= places[low]]
    return wrong


def wrong_table(text: str, layers: dict[str, dict[str, list[str]]]) -> list[str]:
    """The table has each crate, in the order of crates.txt, and what it uses of the kit."""
    crates = {name: uses for crates in layers.values() for name, uses in crates.items()}
    rows = {name: (page, kit) for name, page, kit in ROW.findall(text)}
    wrong = [] if list(rows) == list(crates) else [f"the table has the crates {list(rows)}, and crates.txt has {list(crates)}"]
    for name, (page, kit) in rows.items():
        uses = [it for it in crates.get(name, []) if it not in crates and it not in COMMON]
        if page != name or re.findall(r"\w+", kit) != uses:
            wrong.append(f"the table's row of {name} leads to {page} and says that it uses {kit} of the kit, not {uses}")
    return wrong


def wrong_pointers(text: str) -> list[str]:
    """The page names the files that have raw pointers or unsafe code."""
    said = re.search(r"(?s)^Raw pointers are in (.*?)\. The proofs", text, re.MULTILINE)[1]
    named = {f"{crate}/{name}" for crate, names in RAW_FILES.findall(said) for name in re.findall(r"\w+\.rt", names)}
    found = set()
    for path in (TOP / "crates").glob("*/src/**/*.rt"):
        code = re.sub(r"//.*", "", path.read_text())
        if RAW.search(code):
            found.add(f"{path.relative_to(TOP / 'crates').parts[0]}/{path.name}")
    return [] if named == found else [f"raw pointers are in {sorted(found)}, and the page names {sorted(named)}"]


def wrong_architecture() -> list[str]:
    text = (TOP / "docs" / "ARCHITECTURE.md").read_text()
    layers = read_layers()
    return wrong_picture(text, layers) + wrong_table(text, layers) + wrong_pointers(text)
