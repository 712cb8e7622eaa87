"""Eighteen bugs of a collector, each with what `verify --explain` must say of it."""
import dataclasses
import random
from collections.abc import Callable

from tests.models.image import Collection, Image, encode, header, references_of, size_of


class Collected:
    """An image, and its right collection, from which a bug makes a wrong one."""

    def __init__(self, before: Image, seed: int):
        self.before = before
        self.collection = Collection(before)
        self.right = self.collection.compaction()
        self.words = list(self.right.words)
        self.tail = list(self.right.tail)
        self.random = random.Random(seed)
        self.size = 1 << before.region_log

    def text(self) -> bytes:
        return encode(dataclasses.replace(self.right, words=self.words, tail=self.tail))

    def name(self, a: int) -> str:
        return f"the object at {self.collection.new[a]} (old {a})"

    def objects(self, is_wanted: Callable[[int], bool] = lambda a: True) -> list[int]:
        return [a for a in self.collection.live if is_wanted(a)]

    def any_object(self, is_wanted: Callable[[int], bool] = lambda a: True) -> int:
        return self.random.choice(self.objects(is_wanted))

    def new(self, a: int) -> int:
        return self.collection.new[a]

    def length(self, a: int) -> int:
        return size_of(self.before.words[a])

    def references(self, a: int) -> int:
        return references_of(self.before.words[a])

    def content(self, a: int) -> list[int]:
        return self.collection.object_image(a)

    def put(self, place: int, words: list[int]) -> None:
        self.words[place:place + len(words)] = words

    def region(self, p: int) -> int:
        return p // self.size

    def neighbours(self) -> list[tuple[int, int]]:
        """Objects that touch after the collection, with different headers."""
        pairs = zip(self.collection.live, self.collection.live[1:])
        return [(a, b) for a, b in pairs if self.new(a) + self.length(a) == self.new(b) and self.before.words[a] != self.before.words[b]]


def of_words(size: int, references: int) -> str:
    return f"object of {size} word{'s' * (size != 1)}, {references} reference{'s' * (references != 1)}"


def swapped_neighbours(heap: Collected) -> list[str]:
    a, b = heap.random.choice(heap.neighbours())
    heap.put(heap.new(a), heap.content(b) + heap.content(a))
    return [f"word {heap.new(a)} is the header of {heap.name(a)}, ", f", as {heap.name(b)} has it"]


def reference_too_high(heap: Collected) -> list[str]:
    a = heap.any_object(lambda a: any(heap.before.references(a)))
    f = next(f for f, reference in enumerate(heap.before.references(a)) if reference)
    heap.words[heap.new(a) + 1 + f] += 1
    return [f"is field {f} of {heap.name(a)}, expected -> {heap.words[heap.new(a) + 1 + f] - 2}, found -> "]


def stale_root(heap: Collected) -> list[str]:
    i = next(i for i, (old, new) in enumerate(zip(heap.before.tail, heap.tail)) if old != new)
    heap.tail[i] = heap.before.tail[i]
    return [f"{'live' if heap.before.version == 1 else 'root'} {i} expected "]


def truncated_object(heap: Collected) -> list[str]:
    a = heap.any_object(lambda a: heap.length(a) > heap.references(a) + 1)
    size, references = heap.length(a), heap.references(a)
    heap.words[heap.new(a)] = header(size - 1, references)
    heap.words[heap.new(a) + size - 1] = 0
    return [f"is the header of {heap.name(a)}, expected {of_words(size, references)}, found {of_words(size - 1, references)}\n"]


def missing_filler(heap: Collected) -> list[str]:
    run = heap.random.choice(heap.collection.filler_runs())
    heap.words[run[0]] = 0
    return [f"word {run[0]} is in a filler, expected filler of {len(run)} word{'s' * (len(run) != 1)}, found {0:016x}"]


def header_too_high(heap: Collected) -> list[str]:
    a = heap.any_object()
    heap.words[heap.new(a)] += 1
    return [f"is the header of {heap.name(a)}, expected {of_words(heap.length(a), heap.references(a))}, found "]


def flipped_bit(heap: Collected) -> list[str]:
    a = heap.any_object(lambda a: heap.length(a) > heap.references(a) + 1)
    p = heap.new(a) + heap.length(a) - 1
    heap.words[p] ^= 1 << heap.random.randrange(64)
    return [f"1 word differs, at {p}, in region {heap.region(p)}", f"is data word {heap.length(a) - heap.references(a) - 2} of {heap.name(a)}"]


def duplicate(heap: Collected) -> list[str]:
    a, b = heap.random.choice(heap.neighbours())
    heap.put(heap.new(b), heap.content(a)[:heap.length(b)])
    return [f"is the header of {heap.name(b)}, ", f", as {heap.name(a)} has it"]


def kept_dead_object(heap: Collected) -> list[str]:
    top = heap.collection.top
    heap.put(top, [header(3, 0), 7, 7])
    return [f"word {top} is free, expected {0:016x}, found object of 3 words, 0 references"]


def unsorted_list(heap: Collected) -> list[str]:
    """Two entries of the live list, or two roots, change places."""
    i = next(i for i in range(len(heap.tail) - 1) if heap.tail[i] != heap.tail[i + 1])
    heap.tail[i], heap.tail[i + 1] = heap.tail[i + 1], heap.tail[i]
    return [f"{'live' if heap.before.version == 1 else 'root'} {i} expected "]


def two_at_once(heap: Collected) -> list[str]:
    a, b = heap.objects(lambda a: heap.length(a) > heap.references(a) + 1)[:2]
    for which in (a, b):
        heap.words[heap.new(which) + heap.length(which) - 1] ^= 1
    return ["2 words differ, ", f" of {heap.name(a)}, ", f" of {heap.name(b)}, "]


def region_left(heap: Collected) -> list[str]:
    """A region isn't filled."""
    def differs(r: int) -> bool:
        here = slice(r * heap.size, (r + 1) * heap.size)
        return heap.words[here] != heap.before.words[here]
    r = next(r for r in sorted(heap.collection.to_fill) if r * heap.size >= heap.collection.prefix_end and differs(r))
    heap.put(r * heap.size, heap.before.words[r * heap.size:(r + 1) * heap.size])
    return [f", in region {r}\n", ", the word that was here before"]


def order_not_kept(heap: Collected) -> list[str]:
    """Two neighbours in the other order, and all references lead there."""
    a, b = heap.random.choice(heap.neighbours())
    place = heap.new(a)
    moved = {1 + heap.new(a): 1 + place + heap.length(b), 1 + heap.new(b): 1 + place}
    heap.put(place, heap.content(b) + heap.content(a))
    begins = sorted([place if which == b else place + heap.length(b) if which == a else heap.new(which) for which in heap.collection.live])
    for begin in begins:
        for p in range(begin + 1, begin + 1 + references_of(heap.words[begin])):
            heap.words[p] = moved.get(heap.words[p], heap.words[p])
    heap.tail = begins if heap.before.version == 1 else [moved.get(root, root) for root in heap.tail]
    return [f"is the header of {heap.name(a)}, ", f", as {heap.name(b)} has it"]


def deferred_left(heap: Collected) -> list[str]:
    """An object that crosses the end of a region keeps its old references."""
    def is_deferred(a: int) -> bool:
        crosses = heap.region(heap.new(a)) != heap.region(heap.new(a) + heap.length(a) - 1)
        return crosses and heap.before.references(a) != heap.content(a)[1:1 + heap.references(a)]
    a = next(iter(heap.objects(is_deferred)), None)
    if a is None:
        return []
    heap.put(heap.new(a) + 1, heap.before.references(a))
    return [f" of {heap.name(a)}, expected -> ", ", the old address"]


def smear(heap: Collected) -> list[str]:
    """A word stands in the 20 that follow it, too."""
    first = heap.random.randrange(heap.collection.top - 24)
    heap.put(first, [0x0123456789ABCDEF] * 20)
    return [f"20 words differ, from {first} to {first + 19}, in region", f"word {first} is "]


def lost_half(heap: Collected) -> list[str]:
    half = heap.collection.top // 2
    last = max(p for p in range(heap.collection.top) if heap.words[p])
    heap.put(half, [0] * (len(heap.words) - half))
    return [f" words differ, from {next(p for p in range(half, last + 1) if heap.right.words[p])} to {last}, in regions "]


def moved_prefix(heap: Collected) -> list[str]:
    """The prefix ends at another region."""
    prefix = heap.collection.prefix_end
    others = [Collection(dataclasses.replace(heap.before, allowance=allowance)) for allowance in (0, 2 * heap.before.allowance)]
    other = next((other for other in others if other.prefix_end != prefix), None)
    if other is None:
        return []
    wrong = other.compaction()
    heap.words, heap.tail = wrong.words, wrong.tail
    return [f"the prefix should end at {prefix}, not at {other.prefix_end}\n"]


BUGS = (swapped_neighbours, reference_too_high, stale_root, truncated_object, missing_filler, header_too_high, flipped_bit, duplicate,
        kept_dead_object, unsorted_list, two_at_once, region_left, order_not_kept, deferred_left, smear, lost_half, moved_prefix)


def cut(heap: Collected) -> tuple[bytes, list[str]]:
    """The eighteenth: the file is cut by a word."""
    text = heap.text()
    return text[:-8], [f"the image has {len(text) - 8} of {len(text)} bytes\n"]
