#!/usr/bin/env python3
"""Collects each heap image of a folder with 1, 2, 4 and 64 workers, and verifies what comes out.

The images are the files of the folder that end in `.pcheap`, of any version. For each the table shows what stands
in the image, the line that `pcompact collect` printed, the least seconds of a collection for each number of workers,
and what `pcompact verify` said. All outputs of an image must be equal byte for byte, and so must the lines. Upgraded and
then collected it must print the same line and give the same bytes as collected and then upgraded. Two images whose names
differ in `-v1`, `-v2` and `-v3` alone are one heap: what comes out of them must have the same words, live list
and line. With `--sums` the file gives the sha256 sums of outputs, a line for each as `sha256sum` prints it, under the
image's name. Ends with status 1 where anything differs, where a command fails, where a sum is given for no image, or
where there is no image.
"""
import argparse
import array
import collections
import dataclasses
import filecmp
import hashlib
import pathlib
import re
import struct
import subprocess
import sys
import tempfile
import time

WORKERS = (1, 2, 4, 64)

here = pathlib.Path(__file__).resolve().parent


def reached(words: array.array, roots: array.array) -> set[int]:
    """The addresses of the objects that the roots lead to, in a valid image."""
    stack = [reference - 1 for reference in roots if reference]
    found = set(stack)
    while stack:
        a = stack.pop()
        count = words[a] >> 32 & 0xff_ffff
        new = {reference - 1 for reference in words[a + 1:a + 1 + count] if reference} - found
        found |= new
        stack.extend(new)
    return found


@dataclasses.dataclass(frozen=True)
class Heap:
    words: array.array
    live: list[int]

    @staticmethod
    def of(text: bytes) -> "Heap":
        """The heap of a valid image."""
        numbers = array.array("Q", text[32:])
        if sys.byteorder == "big":
            numbers.byteswap()
        words, = struct.unpack_from("<Q", text, 16)
        listed = text[7] == ord("1")
        live = numbers[words:] if listed else reached(numbers, numbers[words:])
        return Heap(numbers[:words], sorted(live))


@dataclasses.dataclass(frozen=True)
class Facts:
    version: int
    region_log: int
    words: int
    regions: int
    live_objects: int
    live_words: int
    roots: int | str
    allowance: int

    @staticmethod
    def of(image: pathlib.Path) -> "Facts":
        text = image.read_bytes()
        version = text[7] - ord("0")
        region_log, count, words, allowance = struct.unpack_from("<IIQQ", text, 8)
        heap = Heap.of(text)
        live_words = sum(heap.words[a] & 0xffff_ffff for a in heap.live)
        roots = "-" if version == 1 else count
        return Facts(version, region_log, words, words >> region_log, len(heap.live), live_words, roots, allowance)


@dataclasses.dataclass(frozen=True)
class Collected:
    printed: str
    digest: str
    seconds: float
    verdict: str


def said(command: list) -> str:
    """What a command printed, or on which fault or difference it ended."""
    done = subprocess.run(command, capture_output=True, text=True)
    if done.returncode == 0:
        return done.stdout.strip()
    return f"status {done.returncode}: {done.stderr.strip()}"


def collect(pcompact: pathlib.Path, image: pathlib.Path, workers: int, rounds: int, out: pathlib.Path) -> Collected:
    seconds = []
    for _ in range(rounds):
        out.unlink(missing_ok=True)
        start = time.perf_counter()
        printed = said([pcompact, "collect", image, out, "--workers", str(workers)])
        seconds.append(time.perf_counter() - start)
    digest = hashlib.sha256(out.read_bytes()).hexdigest() if out.exists() else "no file"
    verdict = said([pcompact, "verify", image, out])
    out.unlink(missing_ok=True)
    return Collected(printed, digest, min(seconds), verdict)


def is_upgraded_alike(pcompact: pathlib.Path, image: pathlib.Path, printed: str, room: pathlib.Path) -> bool:
    """Whether an image is the same upgraded and then collected as collected and then upgraded."""
    rooted, rooted_out, out, out_rooted = (room / name for name in ("rooted", "rooted_out", "out", "out_rooted"))
    with image.open("rb") as file:
        to = ["--to", "3"] if file.read(8) == b"PCHEAP03" else []
    lines = [said([pcompact, "upgrade", image, rooted, *to]), said([pcompact, "collect", image, out, "--workers", "2"]),
             said([pcompact, "collect", rooted, rooted_out, "--workers", "2"]),
             said([pcompact, "upgrade", out, out_rooted, *to])]
    return (lines[1] == lines[2] == printed and lines[0] == lines[3] and lines[0].startswith("roots ")
            and filecmp.cmp(rooted_out, out_rooted, shallow=False))


def heap_of(image: pathlib.Path) -> str:
    """The name of an image without its version."""
    return re.sub(r"-v[123]$", "", image.stem)


def are_alike(pcompact: pathlib.Path, images: list[pathlib.Path], room: pathlib.Path) -> bool:
    """Whether what comes out of images of one heap has the same words and live list, by the same line."""
    results = []
    for image in images:
        out = room / image.name
        printed = said([pcompact, "collect", image, out, "--workers", "2"])
        results.append((printed, Heap.of(out.read_bytes()) if printed.startswith("prefix ") else None))
    return results[0][1] is not None and all(result == results[0] for result in results)


def is_collected(run: Collected) -> bool:
    return run.printed.startswith("prefix ")


def is_fine(runs: list[Collected]) -> bool:
    same = len({(run.printed, run.digest) for run in runs}) == 1
    return same and is_collected(runs[0]) and all(run.verdict == "same" for run in runs)


def sums_of(file: pathlib.Path | None) -> dict[str, str]:
    """Of each image's name the sum that its output must have."""
    lines = file.read_text().splitlines() if file else []
    return {name: digest for digest, name in (line.split() for line in lines)}


def compared(image: pathlib.Path, runs: list[Collected], sums: dict[str, str]) -> str:
    if image.name not in sums:
        return "-"
    return "as given" if {run.digest for run in runs} == {sums[image.name]} else "another"


def row(image: pathlib.Path, runs: list[Collected], alike: bool, sums: dict[str, str]) -> str:
    facts = dataclasses.astuple(Facts.of(image)) if is_collected(runs[0]) else ["-"] * len(dataclasses.fields(Facts))
    printed = " / ".join(sorted({run.printed for run in runs}))
    verdicts = " / ".join(sorted({run.verdict for run in runs}))
    outputs = "equal" if len({run.digest for run in runs}) == 1 else "different"
    times = " / ".join(f"{run.seconds:.2f}" for run in runs)
    cells = [image.name, *facts, printed, times, outputs, compared(image, runs, sums), verdicts,
             "alike" if alike else "another"]
    return f"| {' | '.join(map(str, cells))} |"


def main() -> int:
    parser = argparse.ArgumentParser(description=__doc__, formatter_class=argparse.RawDescriptionHelpFormatter)
    parser.add_argument("folder", type=pathlib.Path, help="where the images are")
    parser.add_argument("--pcompact", type=pathlib.Path, default=here.parents[1] / "pcompact",
                        help="the program (the script pcompact at the top of the repository)")
    parser.add_argument("--rounds", type=int, default=1, help="how often each collection is made (1)")
    parser.add_argument("--sums", type=pathlib.Path, help="a file of lines `SHA256 NAME`: what outputs must be")
    asked = parser.parse_args()

    images = sorted(asked.folder.glob("*.pcheap"))
    if not images:
        sys.exit(f"no image in {asked.folder}")
    sums = sums_of(asked.sums)
    missing = sums.keys() - {image.name for image in images}
    if missing:
        sys.exit(f"a sum but no image: {' '.join(sorted(missing))}")
    pcompact = asked.pcompact.resolve()
    # The script of that name proves and builds the program at its first call.
    subprocess.run([pcompact, "--version"], check=True, stdout=subprocess.DEVNULL)
    # Of each image, and of each heap in several versions, whether all is right.
    fine = []
    print("| Image | Version | Region log | Words | Regions | Live objects | Live words | Roots | Allowance | Printed "
          f"| Seconds, workers {' / '.join(map(str, WORKERS))} | Outputs | Sum | Verified | Upgraded |")
    print("|" + "---|" * 15)
    versions = collections.defaultdict(list)
    with tempfile.TemporaryDirectory() as scratch:
        room = pathlib.Path(scratch)
        for image in images:
            runs = [collect(pcompact, image, workers, asked.rounds, room / "out.pcheap") for workers in WORKERS]
            alike = is_upgraded_alike(pcompact, image, runs[0].printed, room)
            fine.append(alike and is_fine(runs) and compared(image, runs, sums) != "another")
            versions[heap_of(image)].append(image)
            print(row(image, runs, alike, sums), flush=True)
        print()
        for heap, both in versions.items():
            if len(both) > 1:
                alike = are_alike(pcompact, both, room)
                fine.append(alike)
                print(f"{heap}, {len(both)} versions: {'the same' if alike else 'other'} words, live list and line")
    print("all equal and verified" if all(fine) else "something differs")
    print(f"{fine.count(True)} passed, {fine.count(False)} failed")
    return 0 if all(fine) else 1


if __name__ == "__main__":
    sys.exit(main())
