#!/usr/bin/env python3
"""A plain collector with one of twelve bugs: shrunk_bugs.py BUG IMAGE OUT"""
import dataclasses
import itertools
import pathlib
import sys

# Finds the package `tests` from any folder, and writes nothing beside its modules.
sys.dont_write_bytecode = True
sys.path.insert(0, str(pathlib.Path(__file__).resolve().parents[2]))
from tests.models.image import FILLER, Collection, Image, decode, encode, references_of, size_of

# What each collector does wrong.
BUGS = {
    "stale": "leaves a reference as it was, in a field that isn't the first",
    "null": "redirects null like a reference",
    "root": "leaves the last root as it was",
    "data": "clears the highest bit of data words",
    "tail": "loses the last word of an object that crosses a region end",
    "deferred": "leaves the references of an object that crosses a region end",
    "filler": "writes fillers a word too large",
    "prefix": "lets the dense prefix keep twice as many dead words",
    "free": "clears the free space to the next region end alone",
    "far": "redirects a reference that leads further than three regions a word too far",
    "backward": "doesn't follow references to lower addresses when it marks",
    "twins": "exchanges the first two objects that move",
}


class Collected:
    """An image, and what a right collector makes of it, until a bug changes that."""

    def __init__(self, before: Image):
        self.before = before
        self.collection = Collection(before)
        self.right = self.collection.compaction()
        self.words = list(self.right.words)
        self.tail = list(self.right.tail)
        self.size = 1 << before.region_log

    def image(self) -> Image:
        return dataclasses.replace(self.right, words=self.words, tail=self.tail)

    def fields(self, a: int) -> range:
        """The new addresses of the references of an object."""
        new = self.collection.new[a]
        return range(new + 1, new + 1 + references_of(self.before.words[a]))

    def words_of(self, a: int) -> range:
        new = self.collection.new[a]
        return range(new, new + size_of(self.before.words[a]))

    def old(self, place: int) -> int:
        return self.before.words[self.collection.origins[place]]

    def crossing(self) -> list[int]:
        """The objects that cross a region end in their new place."""
        return [a for a in self.collection.live if self.words_of(a)[0] // self.size != self.words_of(a)[-1] // self.size]

    def all_fields(self) -> list[int]:
        return [place for a in self.collection.live for place in self.fields(a)]

    def restore(self, places: list[int]) -> None:
        for place in places:
            self.words[place] = self.old(place)

    def stale(self) -> None:
        self.restore([place for a in self.collection.live for place in self.fields(a)[1:]])

    def null(self) -> None:
        for place in self.all_fields():
            self.words[place] = self.words[place] or 1 + self.words_of(self.collection.live[0])[0]

    def root(self) -> None:
        self.tail[-1:] = self.before.tail[-1:]

    def data(self) -> None:
        for a in self.collection.live:
            for place in self.words_of(a)[len(self.fields(a)) + 1:]:
                self.words[place] &= 2 ** 63 - 1

    def lose_tail(self) -> None:
        for a in self.crossing():
            self.words[self.words_of(a)[-1]] = 0

    def deferred(self) -> None:
        self.restore([place for a in self.crossing() for place in self.fields(a)])

    def filler(self) -> None:
        for place in range(self.collection.prefix_end):
            is_filler = place not in self.collection.origins and self.words[place] >> 56 == FILLER
            self.words[place] += is_filler

    def prefix(self) -> None:
        more = dataclasses.replace(self.before, allowance=2 * self.before.allowance)
        wrong = Collection(more).compaction()
        self.words, self.tail = wrong.words, wrong.tail

    def free(self) -> None:
        end = -(-self.collection.top // self.size) * self.size
        self.words[end:] = self.before.words[end:]

    def far(self) -> None:
        for place in self.all_fields():
            origin, old = self.collection.origins[place], self.old(place)
            self.words[place] += bool(old) and abs(old - 1 - origin) > 3 * self.size

    def backward(self) -> None:
        words = list(self.before.words)
        for a in self.collection.live:
            for field in range(a + 1, a + 1 + references_of(words[a])):
                words[field] = words[field] if words[field] > a else 0
        wrong = Collection(dataclasses.replace(self.before, words=words)).compaction()
        self.words, self.tail = wrong.words, wrong.tail

    def twins(self) -> None:
        moving = [a for a in self.collection.live if self.words_of(a)[0] != a]
        for a, b in list(itertools.pairwise(moving))[:1]:
            low, middle = self.words_of(a)[0], self.words_of(a)[0] + len(self.words_of(b))
            self.collection.new.update({b: low, a: middle})
            wrong = self.collection.compaction()
            self.words, self.tail = wrong.words, wrong.tail


def collected(before: Image, bug: str) -> Image:
    """What the collector with this bug makes of an image."""
    made = Collected(before)
    if made.collection.live:
        getattr(made, "lose_tail" if bug == "tail" else bug)()
    return made.image()


def main(bug: str, image: str, out: str) -> None:
    pathlib.Path(out).write_bytes(encode(collected(decode(pathlib.Path(image).read_bytes()), bug)))


if __name__ == "__main__":
    main(*sys.argv[1:])
