"""Reads crates/*/src as far as contracts go: the clauses of a call, and the types that clauses speak of."""
import functools
import re

from tests.support.spec_files import TOP, TYPE, Definition, Key, Names, Uses, tell_unknown, without_comments

IMPL = re.compile(r"(?m)^impl(?:<[^{]*?>)? (?:(\w+)(?:<[^{]*?>)? for )?(\w+)[^\n]*\{$")
CLAUSE = re.compile(r"\s*(?:requires|ensures)\*?(?: (\w+))? (?=\{)")
# The head of a trait, or of a type's calls and those of a trait for it; the head of a call.
HEAD = re.compile(r"(?m)^(?:pub(?:\(\w+\))? )?(?:trait (\w+)|impl(?:<[^{]*?>)? (?:(\w+)(?:<[^{]*?>)? for )?(\w+))")
CALL = re.compile(r"(?m)^( *)(pub )?fn (\w+)\b")
FIELD_LINE = re.compile(r"(?m)^    (?:pub(?:\(\w+\))? )?(ghost )?(\w+): ")
WORD = re.compile(r"(?<![\w.:'])[A-Z]\w*")


@functools.cache
def read_source(file: str) -> tuple[str, Names]:
    """The text of a file without comments, and what its names stand for."""
    text = re.sub(r"(?m)^ *#\[.*\]$", "", without_comments((TOP / file).read_text(), "//"))
    return text, Names(file, text)


def in_braces(text: str, begin: int) -> str:
    """What stands in the braces that open at this place."""
    depth = 0
    for place in range(begin, len(text)):
        depth += {"{": 1, "}": -1}.get(text[place], 0)
        if depth == 0:
            return text[begin + 1:place]
    raise ValueError(f"a brace has no end: {text[begin:begin + 60]}")


def types_in(text: str, names: Names) -> set[Key]:
    """The types of crates/ that these words of Rust name."""
    found = {names.find(word) for word in WORD.findall(text)}
    return {it for it in found if isinstance(it, Key)}


@functools.cache
def calls_in(crate: str) -> list[tuple[str, str, str, int]]:
    """The public calls of a crate: of each its type or trait, its name, its file and its place there."""
    found = []
    for path in sorted((TOP / "crates" / crate / "src").rglob("*.rt")):
        file = str(path.relative_to(TOP))
        text, _ = read_source(file)
        heads = [*HEAD.finditer(text)]
        for call in CALL.finditer(text):
            head = next((it for it in reversed(heads) if it.start() < call.start()), None) if call[1] else None
            is_public = bool(call[2]) or head is not None and head[1] is not None
            if is_public and not (head and head[2]):
                found.append((head and (head[1] or head[3]) or "", call[3], file, call.end()))
    return found


def calls_of(crate: str, owner: str | None, name: str | None) -> list[str]:
    """The public calls of a crate, in the form of `find_call`: of this type, or of none in particular; of this name, or all."""
    return ["::".join(filter(None, (crate, of, call))) for of, call, _, _ in calls_in(crate)
            if owner in (None, of) and name in (None, call)]


def find_call(call: str) -> tuple[str, int, str]:
    """Where a public call of the form CRATE::NAME or CRATE::TYPE::NAME stands: its file, its place there and its type."""
    crate, *owner, name = call.split("::")
    for of, other, file, place in calls_in(crate):
        if (of, other) == ("".join(owner), name):
            return file, place, of
    raise ValueError(f"there is no public call {call}")


def clauses_of(text: str, place: int, asked: list[str]) -> list[str]:
    """The clauses behind a signature that ends at this place, or, where some are asked for, what those of its `ensures` say."""
    found, missing = [], set(asked)
    while clause := CLAUSE.match(text, place):
        inside = in_braces(text, clause.end())
        if not asked or clause[1] in asked and "ensures" in clause[0]:
            found.append(inside)
            missing.discard(clause[1])
        place = clause.end() + len(inside) + 2
    if missing:
        raise ValueError(f"there is no clause {', '.join(sorted(missing))}")
    return found


def parts_named(signature: str, clauses: list[str]) -> str:
    """Those of a signature's parameters that the clauses name, and what it returns, or returns at Ok, if they name that."""
    named = set(re.findall(r"\w+", " ".join(clauses)))
    handed, _, returned = signature.partition(" -> ")
    if len(re.findall(r"\bIfOk result\b", " ".join(clauses))) == len(re.findall(r"\bresult\b", " ".join(clauses))):
        returned = returned.rpartition(",")[0] or returned
    parts = [it for it in re.split(r"\b(?=\w+: )", handed) if it.split(":")[0] in named]
    return " ".join([*parts, *[returned] * ("result" in named)])


def impl_parameters(before: str) -> set[str]:
    """The type parameters of the impl in which a text ends, or of the last before it."""
    heads = re.findall(r"(?m)^impl<[^{]*", before)
    return set(re.findall(r"[<,] ?(\w+)(?=[:,>])", heads[-1])) if heads else set()


def read_call(call: str) -> Definition:
    """What the clauses of a call use, and the types of what it is handed and returns. Of CALL#CLAUSE, what this clause of its
    `ensures` uses, and the types of what it names."""
    name, *asked = call.split("#")
    file, begin, owner = find_call(name)
    text, names = read_source(file)
    signature = re.compile(r"\s(?=requires\b|ensures\b|\{)|;").split(text[begin:], maxsplit=1)[0]
    bound = set(re.findall(r"(\w+): ", signature)) | set(re.findall(r"[<,] ?(\w+)(?=[:,>])", signature)) | {"self", "result"}
    bound |= set(re.findall(r"(?m)^    ghost (\w+): ", text)) | impl_parameters(text[:begin])
    clauses = clauses_of(text, begin + len(signature), asked)
    uses = Uses(names, bound)
    for clause in clauses:
        uses.add(clause)
    key = Key(file, call)
    tell_unknown(key, uses.unknown)
    seen = parts_named(signature, clauses) if asked else signature
    is_method = "Self" in seen or re.search(r"\bself\b", " ".join(clauses) if asked else signature)
    types = types_in(seen + (f" {owner}" if is_method else ""), names)
    lines = sum(1 + clause.count("\n") for clause in clauses)
    return Definition(key, text.count("\n", 0, begin) + 1, lines, uses.found | types, {}, uses.fields)


def read_model(text: str, names: Names, name: str) -> tuple[Uses, int] | None:
    """What the value and the view of a type's model use, and on how many lines they stand. None if contracts see its fields."""
    model = next((it for it in IMPL.finditer(text) if it[1] == "Model" and it[2] == name), None)
    inside = in_braces(text, model.end() - 1) if model else ""
    if "ghost Value =" not in inside:
        return None
    uses, lines = Uses(names, set()), 0
    for found in re.finditer(r"ghost (?:Value|view) = (?=\{)", inside):
        expression = in_braces(inside, found.end())
        uses.add(expression)
        lines += 1 + expression.count("\n")
    return uses, lines


def read_fields(body: str, names: Names) -> tuple[dict[str, set], int]:
    """What the type of each field uses, and the number of lines; facts about the fields, which are ghost, have none."""
    by_field, lines = {}, 0
    starts = [*FIELD_LINE.finditer(body)]
    for start, end in zip(starts, [it.start() for it in starts[1:]] + [len(body)]):
        text = body[start.end():end]
        uses = Uses(names, set(by_field))
        if start[1]:
            uses.add(text)
        by_field[start[2]] = uses.found | types_in(text, names)
        lines += 0 if start[0].startswith("    ghost") else len(text.strip().split("\n"))
    return by_field, lines


def associated_types(text: str, names: Names, name: str) -> set[Key]:
    """The types that the traits of a type ask for, as the tag of what a slot holds."""
    impls = [in_braces(text, it.end() - 1) for it in IMPL.finditer(text) if it[1] and it[2] == name]
    return set().union(*(types_in(" ".join(re.findall(r"(?m)^    type \w+ = ([^;]*);", it)), names) for it in impls))


def read_trait(key: Key, line: int, body: str, names: Names) -> Definition:
    """What the ghost items of a trait say of themselves. Its calls' contracts are for those who implement it."""
    uses = Uses(names, set())
    ghosts = re.findall(r"(?m)^    ghost \w+: \{([^}]*)\};$", body)
    for ghost in ghosts:
        uses.add(ghost)
    return Definition(key, line, len(ghosts) + 2, uses.found, {}, uses.fields)


@functools.cache
def read_type(key: Key) -> Definition | None:
    """A type of crates/*/src, or a constant. None for a type without any content, of which nothing is to be believed."""
    text, names = read_source(key.file)
    start = next((it for it in TYPE.finditer(text) if it[2] == key.name), None)
    if start is None:
        raise ValueError(f"{key.file} has no type {key.name}")
    line, end = text.count("\n", 0, start.start()) + 1, re.compile(r"[;{]").search(text, start.end()).start()
    if text[end] == ";":
        rest = text[start.end():end]
        return Definition(key, line, 1, types_in(rest, names), {}, set()) if start[1] != "struct" or "(" in rest else None
    body = in_braces(text, end)
    if start[1] == "trait":
        return read_trait(key, line, body, names)
    more = associated_types(text, names, key.name)
    if start[1] == "enum":
        lines = sum(bool(line.strip()) for line in body.split("\n"))
        return Definition(key, line, lines + 2, types_in(body, names) | more, {}, set())
    by_field, lines = read_fields(body, names)
    model = read_model(text, names, key.name)
    if model is None:
        return Definition(key, line, lines + 2, more, by_field, set())
    uses, shown_on = model
    shown = set().union(*(by_field.get(field, set()) for field in uses.fields))
    return Definition(key, line, lines + 2 + shown_on, uses.found | shown | more, {}, uses.fields)
