"""Reads crates/*/specs: what each definition is called, how many lines it has, and what it uses."""
import dataclasses
import functools
import pathlib
import re

TOP = pathlib.Path(__file__).resolve().parents[2]
CRATES = {path.name for path in (TOP / "crates").iterdir()}
# A path of identifiers, which doesn't begin behind a full stop: in `now.claimed` it is `now`, and `claimed` is a field.
PATH = re.compile(r"(?<![\w.'?])[A-Za-z_][\w'?]*(?:\.\w[\w'?]*)*")
FIELD = re.compile(r"\.([A-Za-z_]\w*)")
# The patterns that aren't variables, and the words of the language that no file imports.
PATTERNS = {"zero", "suc", "true", "false", "some", "none", "tt", "_"}
LANGUAGE = set("Type Unit Self record where module let in if then else tt _ self result Ok Err Some None".split())
USE = re.compile(r"(?m)^\s*(?:ghost )?use ([\w.?]+?)(?:\.\{([^}]*)\}| as (\w+))?;?$")
RUST_USE = re.compile(r"(?m)^use (\w+)::([^;]*);")
ITEM = re.compile(r"^(  )?(?:(?:abbrev|unfoldable) (?:pub )?|(?:pub )?data |(?:pub )?record (?!\w+ =)|(?<! )pub (?=[\w']+ :))(\w[\w']*)")
DATA = re.compile(r"(?m)^(?:pub )?data (\w+)\b.* where\n((?:  .*\n)+)")
TYPE = re.compile(r"(?m)^(?:pub(?:\(\w+\))? )?(struct|enum|trait|type|const) (\w+)")


@dataclasses.dataclass(frozen=True, order=True)
class Key:
    """A definition, by its file below the top and its name."""
    file: str
    name: str


@dataclasses.dataclass
class Definition:
    """A definition, a type or a call, and what it uses: each a Key, or a text for what is the kit's."""
    key: Key
    line: int
    lines: int
    # What it uses always, and what it uses where a field of this name is asked for.
    uses: set
    by_field: dict
    # The names of the fields for which it asks.
    fields: set


def without_comments(text: str, mark: str) -> str:
    """The text with blanks for its comments and for what stands in quotation marks."""
    text = re.sub(r'"(?:[^"\\\n]|\\.)*"', '""', text)
    return re.sub(rf"(?m)(^|\s){mark}.*$", r"\1", text)


def binders(text: str) -> set[str]:
    """The names that are bound in an expression: by `(a b : A)`, `λ a b.` and `let a =`."""
    found = re.findall(r"[({]([\w' ]+) : ", text) + re.findall(r"λ ([\w' ]+)\.", text) + re.findall(r"\blet (\w+) =", text)
    return {name for group in found for name in group.split()}


class Names:
    """What the names of one file stand for: a Key, or a text for what is the kit's."""

    def __init__(self, file: str, text: str):
        self.file, self.meanings, self.modules = file, {}, {}
        for module, names, alias in USE.findall(text):
            if alias:
                self.modules[alias] = module
            for name in filter(None, map(str.strip, names.split(","))):
                name, _, other = name.partition(" as ")
                self.meanings[other or name] = find_meaning(module, name)
        for inner in re.findall(r"(?m)^pub mod (\w+)$", text):
            self.modules[inner] = "Rattle." + file.removeprefix("crates/").removesuffix(".antt").replace("/", ".") + f".{inner}"
        if file.endswith(".rt"):
            self.add_types(text)

    def add_types(self, text: str) -> None:
        """Adds the types of the crate and of the crates that are imported."""
        own = self.file.split("/")[1]
        folder = (TOP / self.file).with_suffix("")
        for crate, names in RUST_USE.findall(text):
            is_own = crate in ("crate", "super") or (folder / f"{crate}.rt").exists()
            for name in re.findall(r"\b[A-Z]\w*", names):
                key = types_of(own if is_own else crate).get(name)
                self.meanings.setdefault(name, key or f"{crate}::{name}")
        for name, key in types_of(own).items():
            self.meanings.setdefault(name, key)

    def find(self, path: str):
        """What a path stands for: None where it is bound to no definition here."""
        head, _, rest = path.partition(".")
        if head in self.modules and rest:
            return find_meaning(self.modules[head], rest.split(".")[0])
        if head in ("Rattle", "lib", "mathlib"):
            return find_meaning(*path.rsplit(".", 1))
        return self.meanings.get(head)


def find_meaning(module: str, name: str):
    """What a name of a module stands for."""
    parts = module.split(".")
    if parts[0] != "Rattle" or parts[1] not in CRATES or parts[3] == "contracts":
        return f"{module}.{name}"
    if parts[3] != "declared":
        file = f"crates/{parts[1]}/specs/{'/'.join(parts[3:])}.antt"
        return Key(file, constructors_of(file).get(name, name))
    if parts[-1] == "TheConstants":
        return Key(f"crates/{parts[1]}/src/{'/'.join(parts[4:-1])}.rt", name)
    if parts[-1] == "TheVariants":
        parts = parts[:-1]
    return Key(f"crates/{parts[1]}/src/{'/'.join(parts[4:-1])}.rt", parts[-1])


@functools.cache
def constructors_of(file: str) -> dict[str, str]:
    """The constructors of the data types of a file of `specs`, each with the name of its type."""
    types = DATA.findall(without_comments((TOP / file).read_text(), "--"))
    return {constructor: name for name, body in types for constructor in re.findall(r"(?m)^  (\w+) :", body)}


@functools.cache
def types_of(crate: str) -> dict[str, Key]:
    """The types of a crate, by name, but for those whose name stands for several."""
    found: dict[str, list[Key]] = {}
    for path in sorted((TOP / "crates" / crate / "src").rglob("*.rt")) if crate in CRATES else []:
        for kind, name in TYPE.findall(path.read_text()):
            if kind != "const":
                found.setdefault(name, []).append(Key(str(path.relative_to(TOP)), name))
    return {name: keys[0] for name, keys in found.items() if len(keys) == 1}


class Uses:
    """Collects what expressions of one file use, beside the names that are bound where they stand."""

    def __init__(self, names: Names, bound: set[str]):
        self.names, self.bound = names, bound
        self.found: set = set()
        self.fields: set[str] = set()
        self.unknown: set[str] = set()

    def add(self, text: str, bound: set[str] = frozenset()) -> None:
        """Adds what an expression uses, where these names are bound too."""
        bound = self.bound | bound | binders(text)
        self.fields |= set(FIELD.findall(text)) | set(re.findall(r"[{;]\s*(\w+) = ", text))
        for path in PATH.findall(re.sub(r"(?<![\w.])\w[\w']* = ", " ", text)):
            head = path.split(".")[0]
            if head in bound:
                continue
            meaning = self.names.find(path)
            if meaning is not None:
                self.found.add(meaning)
            elif head not in LANGUAGE:
                self.unknown.add(head)
        words = set(re.sub(r"[(){};,]", " ", text).split())
        operators = {name: it for name, it in self.names.meanings.items() if not name.isidentifier()}
        self.found |= {it for name, it in operators.items() if is_operator_in(name, words)}


def is_operator_in(name: str, words: set[str]) -> bool:
    """Whether all words of an operator, as `if◌then◌else◌`, are among these."""
    return all(part in words for part in name.replace("◌", " ").split())


def read_item(names: Names, header: str, block: list[str]) -> Uses:
    """What a definition uses, whose module has this header: its type, and each clause or field for itself."""
    indent = len(block[0]) - len(block[0].lstrip())
    uses = Uses(names, binders(header))
    uses.add(header)
    pieces = re.split(rf"(?m)^(?= {{{indent}}}\w)|^(?= {{{indent + 2}}}pub [\w-]+ :)", "\n".join(block))
    name = ITEM.match(block[0])[2]
    for piece in filter(str.strip, pieces):
        field = re.match(r"\s*pub ([\w-]+) :(.*)", piece, re.DOTALL)
        clause = re.match(rf"\s*{re.escape(name)}((?: [^=]*?)?) =\s(.*)", piece, re.DOTALL)
        if field:
            uses.add(field[2])
            uses.bound = uses.bound | {field[1]}
        elif clause:
            variables = {word for word in re.findall(r"[\w']+", clause[1]) if is_variable(word, names)}
            uses.add(f"{clause[1]} \n{clause[2]}", variables)
        else:
            words = re.sub(r"^\s*(abbrev|unfoldable|pub|data|record| )+\w[\w']*", "", piece)
            uses.add(words)
            uses.bound = uses.bound | (binders(words) if "record" in piece.split()[:2] else set())
    return uses


def is_variable(word: str, names: Names) -> bool:
    """Whether a word of a pattern is bound by it."""
    return word not in PATTERNS and (word[0].islower() or names.find(word) is None)


@functools.cache
def read_specs(file: str) -> dict[str, Definition]:
    """The definitions of a file of `specs`."""
    text = without_comments((TOP / file).read_text(), "--")
    names = Names(file, text)
    lines = text.split("\n")
    starts = [(number, ITEM.match(line)) for number, line in enumerate(lines) if ITEM.match(line)]
    for _, start in starts:
        names.meanings[start[2]] = Key(file, start[2])
    for constructor, name in constructors_of(file).items():
        names.meanings[constructor] = Key(file, name)
    found, header = {}, ""
    for place, (number, start) in enumerate(starts):
        end = starts[place + 1][0] if place + 1 < len(starts) else len(lines)
        headers = [line for line in lines[:number] if line.startswith("module ")]
        header = headers[-1] if start[1] and headers else ""
        block = [line for line in lines[number:end] if line.strip() and not line.startswith("module ")]
        uses = read_item(names, header, block)
        key = Key(file, start[2])
        found[start[2]] = Definition(key, number + 1, len(block), uses.found - {key}, {}, uses.fields)
        tell_unknown(key, uses.unknown)
    return found


def tell_unknown(key: Key, unknown: set[str]) -> None:
    """Fails where some names weren't found."""
    if unknown:
        raise ValueError(f"{key.file}: {key.name} uses {', '.join(sorted(unknown))}, which this script can't find")
