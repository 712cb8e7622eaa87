"""A plain model of what `verify --explain` says, made from docs/COMMANDS.md alone."""
import dataclasses
import functools
import itertools
import struct

from tests.models.image import FRONT, MAGICS, Collection, Fault, Image, decode, references_of, size_of, verdict


class Explanation:
    """What is said of some words that should be those of the compaction of an image."""

    def __init__(self, before: Image, after: Image, ignore_free: bool = False):
        self.before, self.after, self.words = before, after, after.words
        self.collection = Collection(before)
        self.expected = self.collection.compaction().words
        self.ignore_free = ignore_free
        limit = self.collection.top if ignore_free else len(self.words)
        self.others = [p for p in range(limit) if self.words[p] != self.expected[p]]

    def object_at(self, p: int) -> int | None:
        """The live object with a word at the new address `p`."""
        old = self.collection.origins.get(p)
        return None if old is None else self.collection.owner[old]

    def object_name(self, a: int) -> str:
        return f"the object at {self.collection.new[a]} (old {a})"

    def part(self, p: int) -> str:
        a = self.object_at(p)
        if a is None:
            return "in a filler" if p < self.collection.top else "free"
        index, references = p - self.collection.new[a], references_of(self.before.words[a])
        if index == 0:
            return f"the header of {self.object_name(a)}"
        kind = f"field {index - 1}" if index <= references else f"data word {index - 1 - references}"
        return f"{kind} of {self.object_name(a)}"

    def lead(self, was: int, found: int) -> str:
        """Where a reference leads that was found. `was` is the one from before the collection."""
        if found == 0:
            return ""
        if found > len(self.words):
            return ", above the heap"
        if found == was:
            return ", the old address"
        a = self.object_at(found - 1)
        if a is not None and self.collection.new[a] == found - 1:
            return f", {self.object_name(a)}"
        return f", which is {self.part(found - 1)}"

    def header_name(self, p: int, word: int) -> str:
        """A word where a header may stand."""
        size, references, kind = word & 0xFFFFFFFF, word >> 32 & 0xFFFFFF, word >> 56
        if size == 0 or p + size > len(self.words):
            return f"{word:016x}"
        if kind == 1 and references < size:
            return f"object of {counted(size, 'word')}, {counted(references, 'reference')}"
        return f"filler of {counted(size, 'word')}" if (kind, references) == (2, 0) else f"{word:016x}"

    def origin(self, p: int) -> str:
        """Where the word that was found stands, too."""
        found, a, new = self.words[p], self.object_at(p), self.collection.new
        if found == 0:
            return ""
        if self.before.words[p] == found:
            return ", the word that was here before"
        if a is None:
            return ""
        ends = {b: place + size_of(self.before.words[b]) for b, place in new.items()}
        for b in sorted(new):
            touches, q = ends[b] == new[a] or new[b] == ends[a], new[b] + p - new[a]
            if touches and q < ends[b] and self.expected[q] == found:
                return f", as {self.object_name(b)} has it"
        return ""

    def line(self, p: int) -> str:
        expected, found, part = self.expected[p], self.words[p], self.part(p)
        if part.startswith("field"):
            lead = self.lead(self.before.words[self.collection.origins[p]], found)
            origin = "" if lead == ", the old address" else self.origin(p)
            return f"word {p} is {part}, expected {named(expected)}, found {named(found)}{lead}{origin}"
        name = (lambda word: f"{word:016x}") if part.startswith("data") else functools.partial(self.header_name, p)
        return f"word {p} is {part}, expected {name(expected)}, found {name(found)}{self.origin(p)}"

    def range_line(self) -> str:
        """How many words differ, from where to where."""
        if len(self.others) < 2:
            return f"1 word differs, at {self.others[0]}, in region {self.region(self.others[0])}" if self.others else "no word differs"
        first, last = self.others[0], self.others[-1]
        low, high = self.region(first), self.region(last)
        return f"{len(self.others)} words differ, from {first} to {last}, in region{f's {low} to {high}' if low < high else f' {low}'}"

    def region(self, p: int) -> int:
        return p >> self.before.region_log

    def prefix_lines(self) -> list[str]:
        """The line of another prefix by which the words would be right. Heaps of more than 65,536 words here have none."""
        if not self.others or len(self.words) > 65_536:
            return []
        for allowance in sorted(set(self.dead_below())):
            collection = Collection(dataclasses.replace(self.before, allowance=allowance))
            limit = collection.top if self.ignore_free else len(self.words)
            if collection.prefix_end != self.collection.prefix_end and collection.compaction().words[:limit] == self.words[:limit]:
                return [f"the prefix should end at {self.collection.prefix_end}, not at {collection.prefix_end}"]
        return []

    def dead_below(self) -> list[int]:
        """The number of dead words below each region."""
        size = 1 << self.before.region_log
        dead = [0, *itertools.accumulate(p not in self.collection.owner for p in range(len(self.words)))]
        return dead[::size]

    def live_lines(self) -> list[str]:
        """The line of the first live address that differs, where AFTER lists them."""
        listed = self.after.tail if self.after.version == 1 else []
        pairs = enumerate(zip(self.collection.new.values(), listed))
        return [f"live {i} expected {expected}, found {found}" for i, (expected, found) in pairs if found != expected][:1]

    def root_lines(self) -> list[str]:
        """The line of the first root that differs."""
        roots = self.after.roots()
        if len(roots) != len(self.before.roots()):
            return []
        triples = [(was, self.collection.redirected(was), root) for was, root in zip(self.before.roots(), roots)]
        lines = [f"root {i} expected {named(expected)}, found {named(found)}{self.lead(was, found)}"
                 for i, (was, expected, found) in enumerate(triples) if found != expected]
        return lines[:1]

    def lines(self) -> list[str]:
        return [self.range_line(), *self.prefix_lines(), *map(self.line, self.others[:10]), *self.live_lines(), *self.root_lines()]


def counted(count: int, name: str) -> str:
    return f"{count} {name}{'' if count == 1 else 's'}"


def named(reference: int) -> str:
    return "null" if reference == 0 else f"-> {reference - 1}"


def sizes(before: Image, after: Image) -> list[str]:
    """A line for each size that differs."""
    def of(image: Image) -> dict[str, int]:
        return {"region-log": image.region_log, "words": len(image.words), "allowance": image.allowance,
                "version": image.version, "live objects": len(image.live()), "roots": len(image.roots())}
    return [f"{name} expected {size} found {of(after)[name]}" for name, size in of(before).items() if size != of(after)[name]]


def verified(before: bytes, after: bytes, ignore_free: bool = False) -> list[str]:
    """The lines of `verify before after --explain`, or ["same"]. The first is the one that is owed."""
    was = decode(before)
    told = ["file AFTER after"]
    try:
        found = decode(after)
        if ignore_free:
            top = Collection(was).top
            expected = Collection(was).compaction().words
            words = [*found.words[:top], *expected[top:]] if len(found.words) == len(expected) else found.words
            difference = verdict_of_words(was, found, words)
        else:
            difference = verdict(was, found)
        if difference is None:
            return ["same"]
        told = [f"differs {difference}", *told, *sizes(was, found)]
    except Fault as fault:
        told = [f"fault {fault}", *told]
        magic, log, count, length, allowance = FRONT.unpack_from(after)
        wanted = FRONT.size + 8 * (length + count)
        if len(after) < wanted:
            return [*told, f"the image has {len(after)} of {wanted} bytes"]
        numbers = list(struct.unpack_from(f"<{length + count}Q", after, FRONT.size))
        found = Image(MAGICS[magic], log, allowance, numbers[:length], numbers[length:])
        name, expected = ("roots", len(was.roots())) if found.version != 1 else ("live objects", len(was.live()))
        told += [f"{name} expected {expected} found {count}"] if count != expected else []
    if len(found.words) != len(was.words):
        return [*told, "the words are not compared"]
    return told + Explanation(was, found, ignore_free).lines()


def verdict_of_words(before: Image, after: Image, words: list[int]) -> str | None:
    """As `verdict`, with these words in place of those of `after`, and its live list."""
    class Seen(Image):
        def live(self) -> list[int]:
            return after.live()
    return verdict(before, Seen(after.version, after.region_log, after.allowance, words, after.tail))
