"""A slow plain model of the comparison of two heap dumps, made from docs/DUMPS.md alone.

It pairs objects by dictionaries and shares nothing with the crates.
"""
import collections
import dataclasses
import itertools
import json

from tests.models.dump import PRIMITIVE_NAMES, REFERENCE, ROOTS, Body, Dump, Object

HIDING = b"java/lang/ref/Reference"
# How far behind its references and data an object may be the last of its space.
WIDE = 4096
REGION = 524_288
MOST_SPACES = 16
MOST_LISTED = 10
SENTENCES = {
    "slid": "slid: each space keeps its order and its distances",
    "broken": "broken: a space has descents or holes",
    "not comparable": "not comparable: less than half of AFTER is paired, or more than 1 per cent is in conflict",
}
STATUSES = {"slid": 0, "broken": 1, "not comparable": 3}


class Graph(Dump):
    """A dump with the places of its roots, and the references that java.lang.ref.Reference hides as null."""

    def __init__(self, dump: bytes):
        self.places: list[tuple[tuple[int, int], int]] = []
        super().__init__(dump)
        self.ids = sorted(self.objects)
        for id_, made in self.objects.items():
            made.references = [reference if reference in self.objects else 0 for reference in made.references]

    def read_heap_record(self, body: Body) -> None:
        tag, start = body.dump[body.at], body.at
        super().read_heap_record(body)
        if tag in ROOTS:
            more = Body(body.dump, start + 1, body.at - start - 1, self.id_size)
            id_ = more.id()
            self.places.append(((tag, self.place(tag, more.number(more.end - more.at))), id_))

    @staticmethod
    def place(tag: int, number: int) -> int:
        if tag == 0x08:
            return number >> 32 << 32
        return number << 32 if tag in (0x04, 0x06) else number

    def instance(self, class_: int, values: bytes, at: int) -> Object:
        made, first = super().instance(class_, values, at), 0
        while class_:
            count = self.classes[class_].fields.count(REFERENCE)
            if self.name(class_) == HIDING:
                made.references[first:first + count] = [0] * count
            first += count
            class_ = self.classes[class_].parent
        return made

    def name(self, class_: int) -> bytes:
        return self.texts.get(self.text_of_class[class_], b"") if class_ in self.text_of_class else b""

    def class_name(self, id_: int) -> str:
        """The name of the class of an object; a class object has its own name."""
        class_ = self.class_of[id_]
        if class_ is None:
            return f"class {self.shown(self.name(id_))}"
        if isinstance(class_, bytes):
            return class_.decode()
        return self.shown(self.name(class_)) if class_ in self.classes else "[?"

    @staticmethod
    def shown(name: bytes) -> str:
        return "".join("." if byte == 0x2F else chr(byte) if 0x20 < byte < 0x7F else "?" for byte in name[:500]) or "?"

    def starting(self) -> dict[tuple[int, object], list[int]]:
        """What classes and roots lead to, by their places."""
        found = collections.defaultdict(list)
        for id_ in self.ids:
            if self.class_of[id_] is None:
                found[0, self.class_name(id_)].append(id_)
        for place, id_ in self.places:
            if id_ in self.objects:
                found[place].append(id_)
        return found

    def kind(self, id_: int) -> tuple[str, int, int]:
        made = self.objects[id_]
        return self.class_name(id_), len(made.references), len(made.data)

    def begins(self, at: int) -> bool:
        """Whether a space begins with the object with this index."""
        return at == 0 or self.reach(self.ids[at - 1]) < self.ids[at]

    def step(self, at: int) -> int:
        """The distance to the next object of the space, or 0."""
        return self.ids[at + 1] - self.ids[at] if at + 1 < len(self.ids) and not self.begins(at + 1) else 0

    def reach(self, id_: int) -> int:
        made = self.objects[id_]
        return id_ + 8 * len(made.references) + WIDE + len(made.data)


@dataclasses.dataclass
class Move:
    before: int
    after: int
    from_step: int
    to_step: int


class Comparison:
    """What two dumps say."""

    def __init__(self, before: bytes, after: bytes):
        self.before, self.after = Graph(before), Graph(after)
        self.partners: dict[int, int] = {}
        self.pair()
        self.sources = {other: one for one, other in self.partners.items()}
        self.spaces = [self.moves(space) for space in self.space_ids()]
        self.conflicts = collections.Counter(kind for kind, *_ in self.conflicting())
        self.changed = [one for one in sorted(self.partners)
                        if self.before.objects[one].data != self.after.objects[self.partners[one]].data]

    def pair(self) -> None:
        taken, queue = set(), collections.deque()

        def offer(one: int, other: int) -> None:
            if one in self.partners or other in taken or self.before.kind(one) != self.after.kind(other):
                return
            self.partners[one] = other
            taken.add(other)
            queue.append(one)

        starts, others = self.before.starting(), self.after.starting()
        for place in sorted(starts):
            for one, other in zip(starts[place], others.get(place, [])):
                offer(one, other)
        while queue:
            one = queue.popleft()
            for reference, target in self.references(one):
                if reference and target:
                    offer(reference, target)

    def references(self, one: int) -> list[tuple[int, int]]:
        return list(zip(self.before.objects[one].references, self.after.objects[self.partners[one]].references))

    def conflicting(self):
        """Each reference in conflict: how, the object, the index, and where both lead."""
        for one in sorted(self.partners):
            for index, (reference, target) in enumerate(self.references(one)):
                if reference and not target:
                    yield "cleared", one, index, reference, target
                elif target and not reference:
                    yield "filled", one, index, reference, target
                elif reference and self.partners.get(reference) != target:
                    yield "elsewhere", one, index, reference, target

    def space_ids(self) -> list[list[int]]:
        spaces: list[list[int]] = []
        for at, id_ in enumerate(self.before.ids):
            if self.before.begins(at):
                spaces.append([])
            spaces[-1].append(id_)
        return spaces

    def moves(self, space: list[int]) -> tuple[int, list[Move]]:
        at, places = {id_: i for i, id_ in enumerate(self.before.ids)}, {id_: i for i, id_ in enumerate(self.after.ids)}
        return space[0], [Move(one, self.partners[one], self.before.step(at[one]), self.after.step(places[self.partners[one]]))
                          for one in space if one in self.partners]

    @staticmethod
    def figures(start: int, moves: list[Move]) -> dict[str, int]:
        pairs = list(itertools.pairwise(moves))
        prefix = len(list(itertools.takewhile(lambda move: move.before == move.after, moves)))
        end = start
        if prefix:
            end = moves[prefix - 1].after + moves[prefix - 1].to_step
            if prefix < len(moves) and end <= moves[prefix].after <= moves[prefix].before:
                end = moves[prefix].after
        return {
            "start": start, "paired": len(moves), "stayed": sum(move.before == move.after for move in moves),
            "descents": sum(other.after < one.after for one, other in pairs),
            "holes": sum(one.from_step != one.to_step for one, _ in pairs), "prefix": prefix, "prefix_end": end,
        }

    def verdict(self) -> str:
        paired = len(self.partners)
        if not paired or len(self.after.ids) // 2 > paired or self.conflicts.total() > paired // 100 + 10:
            return "not comparable"
        spaces = [self.figures(*space) for space in self.spaces]
        return "broken" if any(space["descents"] or space["holes"] for space in spaces) else "slid"

    def counts(self) -> dict[str, int]:
        return {"before": len(self.before.ids), "after": len(self.after.ids), "paired": len(self.partners), "changed": len(self.changed),
                **{kind: self.conflicts[kind] for kind in ("cleared", "filled", "elsewhere")}}

    def as_json(self) -> str:
        spaces = [self.figures(*space) for space in self.spaces]
        return json.dumps({**self.counts(), "verdict": self.verdict(), "spaces": spaces}, separators=(",", ":")) + "\n"

    def named(self, one: int, other: int) -> str:
        return f"{self.before.class_name(one)} @{one:x} -> @{other:x}"

    def unpaired(self) -> list[str]:
        lines = []
        for number, space in enumerate(self.spaces[:MOST_SPACES], 1):
            figures = self.figures(*space)
            if not figures["prefix"]:
                continue
            names = collections.Counter(self.after.class_name(id_) for id_ in self.after.ids
                                        if figures["start"] <= id_ < figures["prefix_end"] and id_ not in self.sources)
            most = sorted(names.items(), key=lambda item: (-item[1], item[0]))[:3]
            lines.append(", ".join([f"unpaired in the prefix of space {number}: {names.total()}", *(f"{count} {name}" for name, count in most)]))
        return lines

    def disorders(self) -> list[str]:
        return [f"out of order: {self.named(other.before, other.after)} is below {self.named(one.before, one.after)}, which was before it"
                for _, moves in self.spaces for one, other in itertools.pairwise(moves) if other.after < one.after][:MOST_LISTED]

    def holes(self) -> list[str]:
        return [f"hole: behind {self.named(one.before, one.after)} the next object is {one.to_step} bytes further on, where it was {one.from_step}"
                for _, moves in self.spaces for one, _ in itertools.pairwise(moves) if one.from_step != one.to_step][:MOST_LISTED]

    def led(self) -> list[str]:
        def target(graph: Graph, id_: int) -> str:
            return f"{graph.class_name(id_)} @{id_:x}" if id_ else "null"

        return [f"conflict: reference {index} of {self.named(one, self.partners[one])} led to {target(self.before, reference)} "
                f"and leads to {target(self.after, to)}"
                for _, one, index, reference, to in itertools.islice(self.conflicting(), MOST_LISTED)]

    def text(self, explain: bool = False) -> str:
        counts, conflicts = self.counts(), self.conflicts
        lines = ["objects before {before} after {after} paired {paired} changed {changed}".format(**counts),
                 f"conflicts {conflicts.total()} cleared {conflicts['cleared']} filled {conflicts['filled']} elsewhere {conflicts['elsewhere']}",
                 " space      paired      stayed    descents       holes      prefix       bytes     regions  start"]
        for number, space in enumerate(self.spaces[:MOST_SPACES], 1):
            it = self.figures(*space)
            size = max(0, it["prefix_end"] - it["start"])
            columns = (it["paired"], it["stayed"], it["descents"], it["holes"], it["prefix"], size, size // REGION)
            lines.append(f"{number:>6}" + "".join(f" {column:>11}" for column in columns) + f"  @{it['start']:x}")
        if len(self.spaces) > MOST_SPACES:
            lines.append(f"and {len(self.spaces) - MOST_SPACES} more")
        lines.append(SENTENCES[self.verdict()])
        if self.verdict() != "not comparable":
            lines += self.unpaired() + self.disorders()
        if explain:
            lines += self.holes() + [f"changed: {self.named(one, self.partners[one])}" for one in self.changed[:MOST_LISTED]] + self.led()
        return "".join(f"{line}\n" for line in lines)

    def status(self) -> int:
        return STATUSES[self.verdict()]
