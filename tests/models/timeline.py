"""A slow plain model of docs/COMMANDS.md, "timeline": what a schedule with all its replies shows. It shares nothing with
the crates."""
import dataclasses

from tests.models.schedule import Line, Machine, Schedule

LETTERS = "_.:+#"
LEGEND = """\
region in hand: _ never . seldom : half + mostly # always
mark: c claims t takes a freed region f frees one s settles x several
"""
MAX_TOLD = 20


@dataclasses.dataclass(frozen=True)
class Bar:
    region: int
    worker: int
    claimed: int
    completed: int | None
    settled: int | None


@dataclasses.dataclass(frozen=True)
class Freeing:
    line: int
    worker: int
    destination: int
    source: int
    # The worker and the line of the claim of the source.
    taken: tuple[int, int] | None

    def text(self) -> str:
        taken = f"worker {self.taken[0]} takes it in line {self.taken[1]}" if self.taken else "nobody takes it"
        return f"line {self.line}: worker {self.worker} drains {self.source} into {self.destination} and frees {self.source}, {taken}"


class Timeline:
    def __init__(self, schedule: Schedule, end: str):
        self.schedule = schedule
        self.end = end
        self.numbered = list(enumerate(schedule.lines, 2))
        self.last = len(schedule.lines) + 1
        grants = [(k, line) for k, line in self.numbered if (line.event, line.reply) == ("claim", "yes")]
        self.bars = [Bar(line.numbers[0], line.worker, k, self.first("complete", line.numbers[0]), self.first("settle", line.numbers[0]))
                     for k, line in grants]
        taken = {line.numbers[0]: (line.worker, k) for k, line in grants}
        self.freeings = [Freeing(k, line.worker, *line.numbers, taken.get(line.numbers[1]))
                         for k, line in self.numbered if (line.event, line.reply) == ("drain", "last")]

    def first(self, event: str, region: int) -> int | None:
        return next((k for k, line in self.numbered if line.event == event and line.numbers[0] == region), None)

    def figures(self) -> str:
        completed = sum(bar.completed is not None for bar in self.bars)
        settled = sum(bar.settled is not None for bar in self.bars)
        taken = sum(freeing.taken is not None for freeing in self.freeings)
        return (f"workers {self.schedule.workers} lines {len(self.numbered)} granted {len(self.bars)} completed {completed}"
                f" settled {settled} freed {len(self.freeings)} taken {taken} {self.end}\n")

    def cells(self, width: int) -> list[range]:
        """The lines of each cell."""
        lines = len(self.numbered)
        count = min(width, lines)
        return [range(i * lines // count + 2, (i + 1) * lines // count + 2) for i in range(count)]

    def held(self, worker: int, cell: range) -> int:
        """In how many lines of a cell a worker has a region in hand, added up over the regions."""
        return sum(max(0, min(bar.settled or self.last, cell[-1]) - max(bar.claimed, cell[0]) + 1)
                   for bar in self.bars if bar.worker == worker)

    def share(self, worker: int, cell: range) -> str:
        held = self.held(worker, cell)
        if held == 0 or held >= len(cell):
            return LETTERS[0 if held == 0 else 4]
        return LETTERS[1 + held * 3 // len(cell)]

    def mark(self, worker: int, cell: range) -> str:
        takes = {freeing.taken for freeing in self.freeings}
        found = [mark for bar in self.bars if bar.worker == worker
                 for mark, k in (("c", bar.claimed), ("t", bar.claimed if (worker, bar.claimed) in takes else None), ("s", bar.settled)) if k in cell]
        found += ["f" for freeing in self.freeings if freeing.worker == worker and freeing.line in cell]
        kinds = set(found) - ({"c"} if "t" in found else set())
        return " " if not kinds else kinds.pop() if len(kinds) == 1 else "x"

    def filled(self, worker: int) -> tuple[int, int]:
        """How many regions a worker completes, and how many words it writes."""
        return (sum(bar.worker == worker and bar.completed is not None for bar in self.bars),
                sum(line.numbers[1] for line in self.schedule.lines if (line.worker, line.event) == (worker, "copy")))

    def idle(self, worker: int) -> str:
        """In which lines a worker has no region in hand, as a drawing says it."""
        held = {k for bar in self.bars if bar.worker == worker for k in range(bar.claimed, (bar.settled or self.last) + 1)}
        parts = []
        for k in (k for k, _ in self.numbered if k not in held):
            if parts and parts[-1][-1] == k - 1:
                parts[-1].append(k)
            else:
                parts.append([k])
        if not parts:
            return "never idle"
        longest = max(parts, key=len)
        where = f"from line {longest[0]} to {longest[-1]}"
        return f"idle {where}" if len(parts) == 1 else f"idle in {sum(map(len, parts))} of {len(self.numbered)} lines, longest {where}"

    def text(self, width: int) -> str:
        rows = []
        for worker in range(self.schedule.workers):
            cells = self.cells(width)
            shares = "".join(self.share(worker, cell) for cell in cells)
            rows.append(f"worker {worker:2} |{shares}|\n          |{''.join(self.mark(worker, cell) for cell in cells)}|\n")
        told = "".join(freeing.text() + "\n" for freeing in self.freeings[:MAX_TOLD])
        more = len(self.freeings) - MAX_TOLD
        axis = f"          lines 2 to {self.last} of the schedule, not time\n"
        return self.figures() + "".join(rows) + axis + LEGEND + told + (f"and {more} more\n" if more > 0 else "")


def stages_at(machine: Machine, lines: list[Line]) -> dict:
    """What a page shows once these lines have been answered: of each region its stage, its claimant and its readers."""
    machine = machine.__class__(machine.collection)
    begun = set()
    for line in lines:
        machine.step(line)
        if line.event in ("copy", "drain"):
            begun.add(line.numbers[0])

    def stage(r: int) -> str:
        if r not in machine.to_fill:
            return "outside"
        if r not in machine.claimed:
            return "start"
        if r in machine.settled:
            return "settled"
        return "filled" if r in machine.filled else "filling" if r in begun else "claimed"

    return {"stages": [stage(r) for r in machine.regions],
            "owners": [machine.claimed.get(r, -1) for r in machine.regions],
            "pending": [machine.pending_on(r) for r in machine.regions],
            "unsettled": len(machine.to_fill - machine.settled)}
