"""A slow plain model of the heaps that `pcompact generate` makes, made from docs/GENERATE.md alone."""
import dataclasses

from tests.models.image import Image, header, reached

MASK = (1 << 64) - 1


def rotated(word: int, bits: int) -> int:
    return (word << bits | word >> 64 - bits) & MASK


def split_mix(seed: int) -> list[int]:
    """The first four words of SplitMix64."""
    words = []
    for _ in range(4):
        seed = seed + 0x9e3779b97f4a7c15 & MASK
        word = (seed ^ seed >> 30) * 0xbf58476d1ce4e5b9 & MASK
        word = (word ^ word >> 27) * 0x94d049bb133111eb & MASK
        words.append(word ^ word >> 31)
    return words


class Dice:
    """The words of xoshiro256++ from a seed."""

    def __init__(self, seed: int):
        self.state = split_mix(seed)

    def word(self) -> int:
        a, b, c, d = self.state
        word = rotated(a + d & MASK, 23) + a & MASK
        c, d = c ^ a, d ^ b
        self.state = [a ^ d, b ^ c, c ^ (b << 17 & MASK), rotated(d, 45)]
        return word

    def below(self, end: int) -> int:
        return self.word() % end

    def size(self) -> int:
        if self.below(64) == 0:
            return 41 + self.below(472)
        one, other = self.below(39), self.below(39)
        return 2 + min(one, other)


@dataclasses.dataclass(frozen=True)
class Wanted:
    words: int
    region_log: int
    live_percent: int
    reference_percent: int
    version: int
    allowance: int
    seed: int


@dataclasses.dataclass(frozen=True)
class Placed:
    address: int
    size: int
    references: int
    is_live: bool


def laid_out(wanted: Wanted, dice: Dice) -> list[Placed]:
    left = {True: wanted.words * wanted.live_percent // 100}
    left[False] = wanted.words - left[True]
    placed, address = [], 0
    while address < wanted.words:
        is_live = dice.below(wanted.words - address) < left[True]
        size = min(dice.size(), left[is_live])
        references = ((size - 1) * wanted.reference_percent + dice.below(100)) // 100
        placed.append(Placed(address, size, references, is_live))
        left[is_live] -= size
        address += size
    return placed


def generated(wanted: Wanted) -> tuple[Image, str]:
    """The image, and the line that is printed."""
    dice = Dice(wanted.seed)
    objects = laid_out(wanted, dice)
    live = [o.address for o in objects if o.is_live]
    words, kept = [], set()
    for o in objects:
        words.append(header(o.size, o.references))
        for _ in range(o.references):
            if dice.below(4) == 0:
                words.append(0)
            elif o.is_live:
                target = live[dice.below(len(live))]
                if target > o.address:
                    kept.add(target)
                words.append(1 + target)
            else:
                words.append(1 + dice.below(wanted.words))
        words.extend(dice.word() for _ in range(o.size - 1 - o.references))
    roots = [1 + a for a in live if a not in kept]
    if reached(words, roots) != set(live):
        raise ValueError("the roots don't reach just the live objects")
    rooted = wanted.version != 1
    image = Image(wanted.version, wanted.region_log, wanted.allowance, words, roots if rooted else live)
    counts = f"words {len(words)} objects {len(objects)} roots {len(roots) if rooted else 0} live {len(live)}\n"
    return image, counts
