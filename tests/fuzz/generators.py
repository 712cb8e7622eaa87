"""Makes valid images and schedules at random: small heaps of many shapes, heaps at the limits, and the steps of workers
that the word machine allows."""
import dataclasses
import random

from tests.models.image import FILLER, MAX_REGIONS, MAX_WORDS, Collection, Image, allows, header, references_of
from tests.models.schedule import ANY, LARGEST_NUMBER, MAX_WORKERS, Line, Machine, Schedule

LARGEST = 2 ** 64 - 1
SHAPES = ("any", "any", "any", "list", "cycle", "array", "none")
# Region logs and numbers of regions that are as large as they may be, one or both of them.
LIMITS = (*[(3, MAX_REGIONS)] * 4, *[(16, 1), (16, 2)] * 2, (16, MAX_WORDS >> 16), (8, MAX_REGIONS))
# The same of heaps that version 3 alone allows.
LATER_LIMITS = ((3, MAX_REGIONS + 1), (17, 1), (17, 2), (20, 1))


def chance_of(chance: random.Random, percent: int, one: object, other: object) -> object:
    return one if chance.randrange(100) < percent else other


def as_version_1(image: Image) -> Image:
    return dataclasses.replace(image, version=1, tail=image.live())


class ImageMaker:
    """Makes a valid image."""

    def __init__(self, chance: random.Random):
        self.chance = chance
        self.log = chance.choice([3, 3, 3, 3, 4, 5, 7, 9])
        self.words = self.dead_words(chance.randint(1, 12 if self.log < 7 else 3) << self.log)
        self.objects = self.place(chance.choice([0, 20, 50, 90]), 9, chance.choice([1, 3, 8, 20, 3 << self.log]))
        self.link()

    def dead_words(self, count: int) -> list[int]:
        """Words that nobody owns: plain ones, or such as look like headers and references."""
        chance = self.chance
        kinds = [lambda: 999, lambda: 0, lambda: chance.randrange(count + 3), lambda: chance.getrandbits(64),
                 lambda: header(1, 0),
                 lambda: header(chance.randint(0, 9), chance.randint(0, 3), chance.choice([1, 1, FILLER]))]
        chosen = chance.choices(kinds, k=chance.randint(1, 3))
        return [chance.choice(chosen)() for _ in range(count)]

    def place(self, gaps: int, longest_gap: int, largest: int) -> list[int]:
        """Objects from address 0 up. So many of a hundred have a gap before them."""
        chance = self.chance
        objects, a = [], 0
        while True:
            a += chance.randint(1, longest_gap) if chance.randrange(100) < gaps else 0
            if a >= len(self.words):
                return objects
            size = min(chance.randint(1, largest), len(self.words) - a)
            self.words[a] = header(size, chance.randint(0, size - 1))
            objects.append(a)
            a += size

    def fields(self, a: int) -> range:
        """Where the references of an object stand."""
        return range(a + 1, a + 1 + references_of(self.words[a]))

    def link(self) -> None:
        """References between all objects, as many as the headers tell."""
        chance = self.chance
        shape = chance.choice(SHAPES)
        nulls = chance.choice([0, 30, 80])
        order = chance.sample(self.objects, len(self.objects))
        following = dict(zip(order, order[1:] + (order[:1] if shape == "cycle" else [])))
        largest = max(self.objects, key=lambda a: references_of(self.words[a]), default=0)
        for a in self.objects:
            fields = self.fields(a)
            some = self.references(len(fields), 100 if shape != "any" else nulls)
            if shape in ("list", "cycle") and a in following and some:
                some[chance.randrange(len(some))] = 1 + following[a]
            if shape == "array" and a == largest:
                some = [1 + b for b in chance.choices(self.objects, k=len(some))]
            self.words[fields.start:fields.stop] = some

    def references(self, count: int, nulls: int) -> list[int]:
        chance = self.chance
        return [0 if chance.randrange(100) < nulls else 1 + chance.choice(self.objects) for _ in range(count)]

    def allowance(self) -> int:
        words = len(self.words)
        return self.chance.choice([0, 0, 1, self.chance.randrange(12), self.chance.randrange(words), words, LARGEST])

    def roots(self) -> list[int]:
        chance = self.chance
        count = chance.choice([0, 1, 1, 2, 3, len(self.objects), len(self.words)])
        return self.references(min(count, len(self.words)), chance.choice([0, 0, 30])) if self.objects else [0] * count

    def image(self) -> Image:
        """A valid image. In version 1 the live list is what some roots lead to."""
        rooted = Image(self.chance.choice([2, 2, 3]), self.log, self.allowance(), self.words, self.roots())
        if not allows(2, self.log, len(self.words)):
            return dataclasses.replace(rooted, version=3)
        return chance_of(self.chance, 60, rooted, as_version_1(rooted))


class LimitMaker(ImageMaker):
    """Makes a valid image at the limits, of few objects far from one another."""

    def __init__(self, chance: random.Random):
        self.chance = chance
        self.log, regions = chance.choice([*LIMITS, *LATER_LIMITS])
        self.words = [chance.choice([0, 999])] * (regions << self.log)
        largest = chance.choice([1, 20, 2_000, len(self.words) if regions < 3 else 20])
        self.objects = self.place(100, len(self.words) // chance.choice([3, 30]), largest)
        self.link()

    def allowance(self) -> int:
        words = len(self.words)
        return self.chance.choice([0, 1, words // 2, LARGEST] if words < 1 << 18 else [0, 1])

    def roots(self) -> list[int]:
        return self.references(self.chance.choice([1, 3, 100]), 30) if self.objects else []


class ScheduleMaker:
    """Makes a schedule that the word machine allows, by workers that take their steps in any order."""

    def __init__(self, chance: random.Random, collection: Collection):
        self.chance = chance
        self.machine = Machine(collection)
        self.workers = chance.choice([1, 2, 2, 3, 8, chance.randint(1, MAX_WORKERS)])
        self.noise = chance.choice([0, 10, 10, 40])
        self.unknown = chance.choice([0, 0, 30, 100])
        self.largest_copy = chance.choice([1, 3, LARGEST])

    def schedule(self) -> Schedule:
        chance = self.chance
        most = chance_of(chance, 70, 2_000, chance.randrange(60))
        lines = []
        while len(lines) < most and (useful := self.useful_lines()):
            line = self.noisy_line() if chance.randrange(100) < self.noise else chance.choice(useful)
            reply = self.machine.step(line)
            if reply is not None:
                lines.append(line.replied(chance_of(chance, self.unknown, ANY, reply)))
        lines += [self.noisy_line() for _ in range(chance.choice([0, 0, 0, 1, 2]))]
        return Schedule(self.workers, lines)

    def useful_lines(self) -> list[Line]:
        """Steps that are allowed and bring the collection on."""
        return [line for d in sorted(self.machine.to_fill - self.machine.settled) for line in self.useful_lines_of(d)]

    def useful_lines_of(self, d: int) -> list[Line]:
        machine = self.machine
        if d not in machine.claimed:
            worker = self.chance.randrange(self.workers)
            return [] if machine.pending_on(d) else [Line(worker, "claim", (d,))]
        worker = machine.claimed[d]
        if d in machine.filled:
            return [Line(worker, "settle", (d,))]
        pending = sorted(pair for pair in machine.pending() if pair[0] == d)
        lines = [Line(worker, "drain", pair) for pair in pending if machine.are_copied(*pair)]
        if machine.unwritten(d):
            count = self.chance.randint(1, min(self.largest_copy, len(machine.unwritten(d))))
            lines.append(Line(worker, "copy", (d, count)))
        is_ready = not machine.unwritten(d) and not pending
        return [*lines, Line(worker, "complete", (d,))] if is_ready else lines

    def noisy_line(self) -> Line:
        """Any step, most of which change nothing or aren't allowed."""
        chance = self.chance
        event = chance.choice(["claim", "look", "look", "poll", "drain", "complete", "settle", "copy"])
        regions = len(self.machine.regions)
        numbers = [chance.choice([chance.randrange(regions), chance.randrange(regions), regions, LARGEST_NUMBER])]
        numbers += [chance.randint(1, regions)] if event in ("drain", "copy") else []
        return Line(chance.randrange(self.workers), event, tuple([] if event == "poll" else numbers))
