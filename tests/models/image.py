"""A slow plain model of heap images and their collection, made from docs/HEAP.md and docs/FORMATS.md alone.

It follows the definitions word by word, and shares nothing with the crates: what is reached is found by a queue and a
set, and counts are counted.
"""
import collections
import dataclasses
import functools
import itertools
import struct
from collections.abc import Iterator

OBJECT, FILLER = 1, 2
MAGICS = {b"PCHEAP01": 1, b"PCHEAP02": 2, b"PCHEAP03": 3}
FRONT = struct.Struct("<8sIIQQ")
# The limits of versions 1 and 2.
MAX_LOG = 16
MAX_WORDS = 4_194_304
MAX_REGIONS = 16_384
# The largest region log, number of words and number of regions by version.
LIMITS = {1: (MAX_LOG, MAX_WORDS, MAX_REGIONS), 2: (MAX_LOG, MAX_WORDS, MAX_REGIONS), 3: (20, 2 ** 36, 2 ** 20)}
# The areas of a map by their letters, from the lowest.
AREAS = {"p": "prefix", "f": "prefix with fillers", "m": "moving", "-": "free"}


class Fault(Exception):
    """The first fault of some bytes, by its text."""


def header(size: int, references: int, kind: int = OBJECT) -> int:
    return kind << 56 | references << 32 | size


def size_of(word: int) -> int:
    return word & 0xffff_ffff


def references_of(word: int) -> int:
    return word >> 32 & 0xff_ffff


def kind_of(word: int) -> int:
    return word >> 56


@dataclasses.dataclass(frozen=True)
class Image:
    """What the bytes of an image say, valid or not."""
    version: int
    region_log: int
    allowance: int
    words: list[int]
    # The live list in version 1, the roots in versions 2 and 3.
    tail: list[int]

    def live(self) -> list[int]:
        return self.tail if self.version == 1 else sorted(reached(self.words, self.tail))

    def roots(self) -> list[int]:
        return [] if self.version == 1 else self.tail

    def references(self, a: int) -> list[int]:
        return references_at(self.words, a)

    def end(self, a: int) -> int:
        return a + size_of(self.words[a])


def references_at(words: list[int], a: int) -> list[int]:
    return words[a + 1:a + 1 + references_of(words[a])]


def is_sound(words: list[int], a: int) -> bool:
    word = words[a]
    return kind_of(word) == OBJECT and references_of(word) < size_of(word) and a + size_of(word) <= len(words)


def reached(words: list[int], roots: list[int]) -> set[int]:
    """The addresses that the roots lead to. Members without a sound header are not followed."""
    found = set()
    queue = collections.deque(roots)
    while queue:
        reference = queue.popleft()
        a = reference - 1
        if 0 < reference <= len(words) and a not in found:
            found.add(a)
            queue.extend(references_at(words, a) if is_sound(words, a) else [])
    return found


def upgraded(image: Image, version: int = 2) -> Image:
    """The same heap in this version, which is no earlier one than its own. A live list becomes roots, one to each live
    object."""
    if image.version > version:
        raise ValueError(f"version {image.version} can't be upgraded to version {version}")
    tail = image.tail if image.version != 1 or version == 1 else [1 + a for a in image.tail]
    return dataclasses.replace(image, version=version, tail=tail)


def allows(version: int, region_log: int, words: int) -> bool:
    """Whether an image of this version may have this number of words in regions of this size."""
    max_log, max_words, max_regions = LIMITS[version]
    return region_log <= max_log and words <= max_words and words >> region_log <= max_regions


def encode(image: Image) -> bytes:
    """The text of an image, valid or not."""
    magic = next(magic for magic, version in MAGICS.items() if version == image.version)
    front = FRONT.pack(magic, image.region_log, len(image.tail), len(image.words), image.allowance)
    return front + struct.pack(f"<{len(image.words) + len(image.tail)}Q", *image.words, *image.tail)


def decode(text: bytes) -> Image:
    """The valid image that these bytes are the text of. Raises the first fault where there is none."""
    if len(text) < FRONT.size:
        raise Fault("1 truncated header")
    magic, log, count, length, allowance = FRONT.unpack_from(text)
    if magic not in MAGICS:
        raise Fault("2 magic")
    max_log, max_words, max_regions = LIMITS[MAGICS[magic]]
    if not 3 <= log <= max_log:
        raise Fault("3 region log")
    if not 0 < length <= max_words or length % (1 << log) or length >> log > max_regions or count > length:
        raise Fault("4 length")
    end = FRONT.size + 8 * (length + count)
    if len(text) < end:
        raise Fault("5 truncated body")
    numbers = list(struct.unpack_from(f"<{length + count}Q", text, FRONT.size))
    image = Image(MAGICS[magic], log, allowance, numbers[:length], numbers[length:])
    check(image)
    if len(text) > end:
        raise Fault("10 trailing bytes")
    return image


def check(image: Image) -> None:
    """Raises the first fault of the live list or the roots, and of what they lead to."""
    words = len(image.words)
    for i, root in enumerate(image.roots()):
        if root > words:
            raise Fault(f"17 root at index {i}")
    live = image.live()
    for i, (before, a) in enumerate(zip([-1, *live], live)):
        if a <= before or a >= words:
            raise Fault(f"6 live order at index {i}")
    for a in live:
        if not is_sound(image.words, a):
            raise Fault(f"7 header at {a}")
    for before, a in itertools.pairwise(live):
        if a < image.end(before):
            raise Fault(f"8 overlap at {a}")
    good = {0, *(1 + a for a in live)}
    for a in live:
        for f, reference in enumerate(image.references(a)):
            if reference not in good:
                raise Fault(f"9 reference at {a} field {f}")


class Collection:
    """What a collection of a valid image does."""

    def __init__(self, image: Image):
        self.image = image
        self.region_words = 1 << image.region_log
        self.live = image.live()
        # Of each live word the object that it belongs to.
        self.owner = {word: a for a in self.live for word in range(a, image.end(a))}
        self.prefix_end = self.find_prefix_end()
        self.new, self.top = self.slide()
        # Of each new word of an object the old address that it comes from.
        self.origins = {self.new[a] + word - a: word for word, a in self.owner.items()}
        # The pairs (destination, source) of regions of which the first takes words from the second.
        self.reads = {(self.region_of(new), self.region_of(old)) for new, old in self.origins.items()}
        self.to_fill = {r for r in self.regions() if r * self.region_words < self.top}

    def regions(self) -> range:
        return range(self.region_of(len(self.image.words)))

    def region_of(self, a: int) -> int:
        return a // self.region_words

    def find_prefix_end(self) -> int:
        dead, best = 0, 0
        last_end = self.image.end(self.live[-1]) if self.live else 0
        for end in range(self.region_words, last_end + 1, self.region_words):
            dead += sum(word not in self.owner for word in range(end - self.region_words, end))
            best = end if dead <= self.image.allowance else best
        return best

    def slide(self) -> tuple[dict[int, int], int]:
        """The new address of each live object, and the new top."""
        new = {}
        following = self.prefix_end
        for a in self.live:
            new[a] = a if a < self.prefix_end else following
            following = max(following, new[a] + size_of(self.image.words[a]))
        return new, following if self.live else 0

    def redirected(self, reference: int) -> int:
        return 1 + self.new[reference - 1] if reference else 0

    def object_image(self, a: int) -> list[int]:
        words = self.image.words
        after = a + 1 + references_of(words[a])
        return [words[a], *map(self.redirected, self.image.references(a)), *words[after:self.image.end(a)]]

    def filler_runs(self) -> list[list[int]]:
        """Each longest run of dead words of the prefix, cut at multiples of 2^31."""
        runs = itertools.groupby(range(self.prefix_end), key=lambda word: (word in self.owner, word >> 31))
        return [list(run) for (is_live, _), run in runs if not is_live]

    def compaction(self) -> Image:
        words = [0] * len(self.image.words)
        for a, to in self.new.items():
            moved = self.object_image(a)
            words[to:to + len(moved)] = moved
        for run in self.filler_runs():
            words[run[0]] = header(len(run), 0, FILLER)
        is_rooted = self.image.version != 1
        tail = map(self.redirected, self.image.tail) if is_rooted else self.new.values()
        return dataclasses.replace(self.image, words=words, tail=list(tail))

    def figures(self) -> str:
        return f"prefix {self.prefix_end} top {self.top} filled {len(self.to_fill)}\n"

    def report(self) -> str:
        """What `summary` prints."""
        lines = [self.report_line(r) for r in self.regions()]
        return "".join([f"prefix {self.prefix_end} top {self.top}\n", *lines])

    def order(self) -> str:
        """What `order` prints."""
        words = {r: min(self.region_words, self.top - r * self.region_words) for r in self.to_fill}
        waits = {s: [d for d, source in self.reads if source == s != d] for s in self.to_fill}

        @functools.cache
        def longest_to(s: int) -> int:
            """The words of the longest chain that ends with a region."""
            return words[s] + max((longest_to(d) for d in waits[s]), default=0)

        chain = max((longest_to(s) for s in sorted(words)), default=0)
        hundredths = self.top * 100 // chain if chain else 100
        workers = min(64, next(n for n in itertools.count(1) if self.top <= n * chain))
        return f"chain {chain} words {self.top} speedup {hundredths // 100}.{hundredths % 100:02} workers {workers}\n"

    def map(self, width: int, after: bool, height: int = 1) -> str:
        """What `map` prints in letters and without colours."""
        last_end = self.image.end(self.live[-1]) if self.live else 0
        strips = [("before", set(self.owner), last_end)] + [("after ", set(self.origins), self.top)] * after
        lines = [self.map_line()]
        shown = set()
        for name, living, top in strips:
            cells = list(self.cells(width * height, living, top))
            shown |= {area for _, area in cells}
            for start in range(0, len(cells), width):
                row, first = cells[start:start + width], start * len(self.image.words) // len(cells)
                words, mib = (f" {first}", f" {first // 131072}.{first % 131072 * 10 // 131072} MiB") if height > 1 else ("", "")
                lines += [f"{'      ' if start else name} |{''.join(shade for shade, _ in row)}|{words}\n",
                          f"       |{''.join(area for _, area in row)}|{mib}\n"]
        names = "".join(f" {area} {name}" for area, name in AREAS.items() if area in shown)
        return "".join([*lines, f"live: _ none . few : half + most # all\narea:{names}\n"])

    def moves(self, most: int = 64) -> str:
        """What `map --moves` adds: where the words of each object go, or those of whole regions."""
        bands = [(a, self.image.end(a), self.new[a] == a) for a in self.live]
        if len(self.live) > most:
            above = len(self.image.words) - self.prefix_end
            each = max(1, -(-(above // self.region_words) // most)) * self.region_words
            ends = [*range(self.prefix_end, len(self.image.words), each), len(self.image.words)]
            bands = [(0, self.prefix_end, True)] * (self.prefix_end > 0) + [(*pair, False) for pair in itertools.pairwise(ends)]
        return "".join(["moves:\n", *(self.band_line(*band) for band in bands)])

    def band_line(self, start: int, end: int, stays: bool) -> str:
        new = {old: to for to, old in self.origins.items()}
        words = [new[word] for word in range(start, end) if word in new]
        target = start if start < self.prefix_end else self.prefix_end + sum(self.prefix_end <= word < start for word in new)
        place = f"{len(words)} stay" if stays else f"{len(words)} go to {target}"
        return f"{start} to {end - 1}: {place if words else 'none live'}\n"

    def map_line(self) -> str:
        words, live = len(self.image.words), len(self.owner)
        return f"words {words} live {live} dead {words - live} prefix {self.prefix_end} top {self.top} filled {len(self.to_fill)}\n"

    def cells(self, width: int, living: set[int], top: int) -> Iterator[tuple[str, str]]:
        """The shade and the area of each cell, where these words live, and none from the top up."""
        words = len(self.image.words)
        count = min(width, words)
        for i in range(count):
            cell = range(i * words // count, (i + 1) * words // count)
            live = sum(word in living for word in cell)
            shade = "_" if live == 0 else "#" if live == len(cell) else ".:+"[3 * live // len(cell)]
            areas = ["p" if word < self.prefix_end else "-" if word >= top else "m" for word in cell]
            area = max("pm-", key=areas.count)
            yield shade, "f" if area == "p" and live < len(cell) else area

    def report_line(self, r: int) -> str:
        start = r * self.region_words
        owners = [self.owner[word] for word in range(start, start + self.region_words) if word in self.owner]
        partial = sum(a < start for a in owners)
        is_prefix = start < self.prefix_end
        slid_below = sum(self.prefix_end <= old < start for old in self.owner)
        destination = start if is_prefix else self.prefix_end + slid_below
        count = sum(s == r != d for d, s in self.reads)
        is_moved_to = not is_prefix and start < self.top
        source = self.region_of(self.origins[start]) if is_moved_to else "-"
        columns = [r, partial, len(owners) - partial, destination, count, source]
        return " ".join(f"{column:>8}" for column in columns) + "\n"


def verdict(before: Image, after: Image) -> str | None:
    """What `verify` says of two valid images: None, or the first difference."""
    wanted = Collection(before).compaction()

    def shape(image: Image) -> tuple[int, ...]:
        lengths = len(image.words), len(image.live()), len(image.roots())
        return image.version, image.region_log, image.allowance, *lengths

    def differing(one: list[int], other: list[int]) -> int | None:
        return next((i for i, (a, b) in enumerate(zip(one, other)) if a != b), None)

    if shape(wanted) != shape(after):
        return "shape"
    places = {"word": differing(wanted.words, after.words), "live": differing(wanted.live(), after.live()),
              "root": differing(wanted.roots(), after.roots())}
    return next((f"{what} {place}" for what, place in places.items() if place is not None), None)
