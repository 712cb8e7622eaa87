#!/usr/bin/env python3
"""Records each heap image of a folder with 1, 2, 4 and 64 workers, and replays each schedule.

The images are the files of the folder that end in `.pcheap`. A row shows an image and a number of workers, the lines
and the bytes of the schedule, how many workers its lines name, the least seconds of `pcompact collect`, `record` and
`replay`, how the replay ended, and whether what `record` wrote is, byte for byte, what `collect` wrote. Each replay
must end in `finished`, and show the recorded lines. Images of one name but for `-v1`, `-v2` and `-v3` at its end are
versions of one heap: with one worker they must have one schedule. Ends with status 1 where something differs, where a
command fails, or where there is no image.
"""
import argparse
import collections
import dataclasses
import filecmp
import pathlib
import re
import subprocess
import sys
import tempfile
import time

WORKERS = (1, 2, 4, 64)

here = pathlib.Path(__file__).resolve().parent


@dataclasses.dataclass(frozen=True)
class Timed:
    seconds: float
    printed: bytes
    failure: str


@dataclasses.dataclass(frozen=True)
class Recorded:
    collect: Timed
    record: Timed
    replay: Timed
    schedule: bytes
    same_out: bool

    def failures(self) -> list[str]:
        return [run.failure for run in (self.collect, self.record, self.replay) if run.failure]

    def end(self) -> str:
        """How the replay ended, after the lines that were recorded."""
        shown = self.replay.printed
        is_recorded = shown.startswith(self.schedule)
        return shown[len(self.schedule):].decode().strip() if is_recorded else "other lines"

    def seats(self) -> int:
        """How many workers the lines of the schedule name."""
        return len({line.split()[0] for line in self.schedule.splitlines()[1:]})

    def is_fine(self) -> bool:
        same_figures = self.collect.printed == self.record.printed
        return not self.failures() and same_figures and self.same_out and self.end() == "finished"


def timed(command: list, rounds: int) -> Timed:
    """The least time of some runs of a command, and what the last one printed, or how it failed."""
    seconds = []
    for _ in range(rounds):
        start = time.perf_counter()
        done = subprocess.run(command, capture_output=True)
        seconds.append(time.perf_counter() - start)
    failure = f"status {done.returncode}: {done.stderr.decode().strip()}" if done.returncode else ""
    return Timed(min(seconds), done.stdout, failure)


def record(pcompact: pathlib.Path, image: pathlib.Path, workers: int, rounds: int, room: pathlib.Path) -> Recorded:
    collected, out, schedule = room / "collected", room / "out", room / "schedule"
    for file in (collected, out, schedule):
        file.write_bytes(b"")
    count = ["--workers", str(workers)]
    collect = timed([pcompact, "collect", image, collected, *count], rounds)
    recorded = timed([pcompact, "record", image, out, schedule, *count], rounds)
    replay = timed([pcompact, "replay", image, schedule], rounds)
    same_out = filecmp.cmp(collected, out, shallow=False)
    return Recorded(collect, recorded, replay, schedule.read_bytes(), same_out)


def heap_of(image: pathlib.Path) -> str:
    """The name of an image without its version."""
    return re.sub(r"-v[123]$", "", image.stem)


def row(image: pathlib.Path, workers: int, run: Recorded) -> str:
    times = [f"{it.seconds:.2f}" for it in (run.collect, run.record, run.replay)]
    end = " / ".join(run.failures()) or run.end()
    cells = [image.name, workers, run.schedule.count(b"\n"), len(run.schedule), run.seats(), *times, end,
             "equal" if run.same_out else "different"]
    return f"| {' | '.join(map(str, cells))} |"


def main() -> int:
    parser = argparse.ArgumentParser(description=__doc__, formatter_class=argparse.RawDescriptionHelpFormatter)
    parser.add_argument("folder", type=pathlib.Path, help="where the images are")
    parser.add_argument("--pcompact", type=pathlib.Path, default=here.parents[1] / "pcompact",
                        help="the program (the script pcompact at the top of the repository)")
    parser.add_argument("--rounds", type=int, default=1, help="how often each command is run (1)")
    asked = parser.parse_args()

    images = sorted(asked.folder.glob("*.pcheap"))
    if not images:
        sys.exit(f"no image in {asked.folder}")
    pcompact = asked.pcompact.resolve()
    # The script of that name proves and builds the program at its first call.
    subprocess.run([pcompact, "--version"], check=True, stdout=subprocess.DEVNULL)
    # Of each image and number of workers, and of each heap in several versions, whether all is right.
    fine = []
    alone = collections.defaultdict(list)
    print("| Image | Workers | Lines | Bytes | Workers named | collect s | record s | replay s | Replay | OUT |")
    print("|---|---|---|---|---|---|---|---|---|---|")
    with tempfile.TemporaryDirectory() as scratch:
        for image in images:
            for workers in WORKERS:
                run = record(pcompact, image, workers, asked.rounds, pathlib.Path(scratch))
                fine.append(run.is_fine())
                if workers == 1:
                    alone[heap_of(image)].append(run.schedule)
                print(row(image, workers, run), flush=True)
    twins = {heap: schedules for heap, schedules in alone.items() if len(schedules) > 1}
    print()
    for heap, schedules in twins.items():
        same = len(set(schedules)) == 1
        fine.append(same)
        print(f"{heap}, {len(schedules)} versions, one worker: {'one schedule' if same else 'schedules differ'}")
    print("all replays finished, all outputs equal" if all(fine) else "something differs")
    print(f"{fine.count(True)} passed, {fine.count(False)} failed")
    return 0 if all(fine) else 1


if __name__ == "__main__":
    sys.exit(main())
