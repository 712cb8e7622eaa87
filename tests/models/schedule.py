"""A slow plain model of schedules and of the word machine that follows them, made from docs/SCHEDULER.md and
docs/FORMATS.md alone.

The state of the scheduler is the four sets of the page. The word machine adds the heap and counts what is written. It
shares nothing with the crates.
"""
import collections
import dataclasses
import re

from tests.models.image import Collection, Fault, references_of, size_of

NUMBER = re.compile("0|[1-9][0-9]{0,9}")
LARGEST_NUMBER = 2 ** 32 - 1
FIRST_LINE = re.compile("schedule 1 ([1-9][0-9]?)")
MAX_WORKERS = 64
ANY = "?"
# Of each event how many numbers follow its word, and which replies it has.
FORMS = {
    "claim": (1, ("yes", "no")),
    "look": (1, ("open0", "open1", "open2", "out0", "out1", "out2", "claimed", "filled")),
    "drain": (2, ("last", "notlast")),
    "complete": (1, ("ok",)),
    "settle": (1, ("all", "more")),
    "poll": (0, ("all", "more")),
    "copy": (2, ("ok",)),
}


@dataclasses.dataclass(frozen=True)
class Line:
    worker: int
    event: str
    numbers: tuple[int, ...] = ()
    reply: str = ANY

    def text(self) -> str:
        return " ".join(map(str, [self.worker, self.event, *self.numbers, self.reply])) + "\n"

    def replied(self, reply: str) -> "Line":
        return dataclasses.replace(self, reply=reply)


@dataclasses.dataclass(frozen=True)
class Schedule:
    workers: int
    lines: list[Line]

    def text(self) -> str:
        return f"schedule 1 {self.workers}\n" + "".join(line.text() for line in self.lines)


def refused(line: int) -> Fault:
    return Fault(f"14 schedule line {line}")


def number_of(word: str) -> int | None:
    return int(word) if NUMBER.fullmatch(word) and int(word) <= LARGEST_NUMBER else None


def workers_of(line: str) -> int | None:
    found = FIRST_LINE.fullmatch(line)
    return int(found[1]) if found and int(found[1]) <= MAX_WORKERS else None


def line_of(text: str, workers: int) -> Line | None:
    """The line that this text is, or None where it is malformed."""
    words = text.split(" ")
    if len(words) < 3 or words[1] not in FORMS:
        return None
    worker, event, *numbers, reply = words
    count, replies = FORMS[event]
    read = [number_of(word) for word in (worker, *numbers)]
    if None in read or len(numbers) != count or read[0] >= workers or reply not in (ANY, *replies):
        return None
    return None if event == "copy" and read[2] == 0 else Line(read[0], event, tuple(read[1:]), reply)


def read(text: bytes) -> Schedule:
    """The schedule that these bytes are the text of. Raises the fault of the least malformed line."""
    *lines, rest = text.decode("latin-1").split("\n")
    workers = workers_of(lines[0]) if lines else None
    if workers is None:
        raise refused(1)
    found = [line_of(line, workers) for line in lines[1:]]
    if None in found:
        raise refused(2 + found.index(None))
    if rest:
        raise refused(1 + len(lines))
    return Schedule(workers, found)


class Machine:
    """The word machine over a valid image."""

    def __init__(self, collection: Collection):
        self.collection = collection
        self.regions = collection.regions()
        self.to_fill = collection.to_fill
        self.pairs = {(d, s) for d, s in collection.reads if d != s}
        self.drained = set()
        # Of each claimed region the worker.
        self.claimed = {}
        self.filled = set()
        self.settled = set()
        self.words = list(collection.image.words)
        # Of each region how many of its words are written.
        self.written = collections.Counter()
        self.after = collection.compaction()

    def step(self, line: Line) -> str | None:
        """The reply to an event, which changes the state; or None where it isn't allowed."""
        return getattr(self, line.event)(line.worker, *line.numbers)

    def pending(self) -> set[tuple[int, int]]:
        return self.pairs - self.drained

    def pending_on(self, s: int) -> int:
        return sum(source == s for _, source in self.pending())

    def is_filled_by(self, worker: int, d: int) -> bool:
        """Whether this worker has claimed the region, and it isn't filled yet."""
        return self.claimed.get(d) == worker and d not in self.filled

    def new_words(self, d: int) -> range:
        """The addresses of a region that are below the new top."""
        start = d * self.collection.region_words
        return range(start, min(start + self.collection.region_words, self.collection.top))

    def unwritten(self, d: int) -> range:
        return self.new_words(d)[self.written[d]:]

    def words_between(self, d: int, s: int) -> list[int]:
        """The new addresses in one region of words that come from another one, or from the same."""
        collection = self.collection
        return [to for to in self.new_words(d) if collection.region_of(collection.origins.get(to, to)) == s]

    def are_copied(self, d: int, s: int) -> bool:
        return not set(self.words_between(d, s)) & set(self.unwritten(d))

    def reply_of_settling(self) -> str:
        return "all" if self.settled == self.to_fill else "more"

    def claim(self, worker: int, r: int) -> str | None:
        if r not in self.regions:
            return None
        if r not in self.to_fill or r in self.claimed or self.pending_on(r):
            return "no"
        self.claimed[r] = worker
        return "yes"

    def look(self, _worker: int, r: int) -> str | None:
        if r not in self.regions:
            return None
        if r in self.claimed:
            return "filled" if r in self.filled else "claimed"
        return f"open{self.pending_on(r)}" if r in self.to_fill else f"out{self.pending_on(r)}"

    def drain(self, worker: int, d: int, s: int) -> str | None:
        if not self.is_filled_by(worker, d) or (d, s) not in self.pending() or not self.are_copied(d, s):
            return None
        self.drained.add((d, s))
        return "notlast" if self.pending_on(s) else "last"

    def complete(self, worker: int, d: int) -> str | None:
        is_ready = not any(destination == d for destination, _ in self.pending()) and not self.unwritten(d)
        if not self.is_filled_by(worker, d) or not is_ready:
            return None
        self.filled.add(d)
        return "ok"

    def settle(self, worker: int, d: int) -> str | None:
        if self.claimed.get(d) != worker or d not in self.filled or d in self.settled:
            return None
        self.settled.add(d)
        return self.reply_of_settling()

    def poll(self, _worker: int) -> str:
        return self.reply_of_settling()

    def copy(self, worker: int, d: int, count: int) -> str | None:
        if not self.is_filled_by(worker, d) or not 1 <= count <= len(self.unwritten(d)):
            return None
        for to in self.unwritten(d)[:count]:
            self.words[to] = self.moved_word(to)
        self.written[d] += count
        return "ok"

    def moved_word(self, to: int) -> int:
        """What is written at a new address, from the heap as it stands."""
        origin = self.collection.origins.get(to)
        if origin is None:
            return self.after.words[to]
        a = self.collection.owner[origin]
        word = self.words[origin]
        return self.collection.redirected(word) if self.is_reference(a, origin) and not self.is_deferred(a) else word

    def is_reference(self, a: int, origin: int) -> bool:
        return a < origin <= a + references_of(self.collection.image.words[a])

    def is_deferred(self, a: int) -> bool:
        """Whether the new words of an object cross the end of the region in which they begin."""
        collection = self.collection
        to = collection.new[a]
        return collection.region_of(to) != collection.region_of(to + size_of(collection.image.words[a]) - 1)

    def end(self) -> str:
        """Whether all regions to fill are settled. Then what is deferred is updated, and the rest cleared."""
        if self.settled != self.to_fill:
            return "open\n"
        for to, origin in self.collection.origins.items():
            a = self.collection.owner[origin]
            if self.is_reference(a, origin) and self.is_deferred(a):
                self.words[to] = self.collection.redirected(self.words[to])
        self.words[self.collection.top:] = [0] * (len(self.words) - self.collection.top)
        return "finished\n"


def replayed(collection: Collection, schedule: Schedule) -> str:
    """What `replay` prints. Raises the fault of the least line that isn't allowed, or has another reply."""
    machine = Machine(collection)
    lines = []
    for number, line in enumerate(schedule.lines, 2):
        reply = machine.step(line)
        if reply is None or line.reply not in (ANY, reply):
            raise refused(number)
        lines.append(line.replied(reply))
    text = Schedule(schedule.workers, lines).text() + machine.end()
    if machine.settled == machine.to_fill and machine.words != machine.after.words:
        raise AssertionError("the word machine's heap isn't the compaction")
    return text


def fill(machine: Machine, worker: int, d: int) -> list[Line]:
    """What a worker that fills a region does, as it is recorded."""
    own = len(machine.words_between(d, d))
    lines = [("claim", d), *([("copy", d, own)] if own else [])]
    for s in sorted(source for destination, source in machine.pairs if destination == d):
        lines += [("copy", d, len(machine.words_between(d, s))), ("drain", d, s)]
    return [Line(worker, event, tuple(numbers)) for event, *numbers in [*lines, ("complete", d), ("settle", d)]]


def recorded_by_one(collection: Collection) -> Schedule:
    """The schedule that is recorded with one worker."""
    machine = Machine(collection)
    ready = collections.deque(r for r in sorted(machine.to_fill) if not machine.pending_on(r))
    lines = []
    while ready:
        for line in fill(machine, 0, ready.popleft()):
            lines.append(line.replied(machine.step(line)))
            if lines[-1].reply == "last" and line.numbers[1] in machine.to_fill:
                ready.append(line.numbers[1])
    return Schedule(1, lines)


def is_recorded(collection: Collection, schedule: Schedule) -> bool:
    """Whether each region to fill is filled once, by one worker, in the order of a fill, and nothing is done beside that but
    claims that are refused."""
    machine = Machine(collection)
    of_region = collections.defaultdict(list)
    for line in schedule.lines:
        if (line.event, line.reply) != ("claim", "no"):
            of_region[line.numbers[0] if line.numbers else None].append(line.replied(ANY))
    fills = {d: fill(machine, lines[0].worker, d) for d, lines in of_region.items() if d in machine.to_fill}
    return set(of_region) == machine.to_fill and of_region == fills
