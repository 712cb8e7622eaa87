"""What the benchmarks share: their programs, ours proved and the plain ones compiled, each in a scratch folder."""
import pathlib
import re
import shutil
import subprocess
import sys

# Huge pages, as the script pcompact asks for them.
TUNABLES = ("glibc.malloc.hugetlb=1:glibc.malloc.mmap_max=0:glibc.malloc.arena_max=1:glibc.malloc.tcache_count=0:"
            "glibc.malloc.top_pad=67108864")

bench = pathlib.Path(__file__).resolve().parent
top = bench.parent


def built() -> pathlib.Path:
    """The program that fits the sources, which the script at the top of the repository builds where there is none."""
    subprocess.run([top / "pcompact", "--version"], check=True, stdout=subprocess.DEVNULL)
    words = ["sh", "-c", 'top=$1; . "$top/sources.sh"; program_path', "sh", top]
    return pathlib.Path(subprocess.run(words, check=True, capture_output=True, text=True).stdout.removesuffix("\n"))


def lines_up_to(crate: str) -> list[str]:
    """The lines of crates.txt for a crate and those below it, which come before it."""
    lines = [line for line in (top / "crates.txt").read_text().splitlines() if line and not line.startswith("#")]
    return lines[:[name_of(line) for line in lines].index(crate) + 1]


def name_of(line: str) -> str:
    return re.split("[ :]", line)[0]


def copy_crate(name: str, scratch: pathlib.Path) -> None:
    """The crate as it is now, the first time with what the repository has proved of it already."""
    crate, copy = top / "crates" / name, scratch / "crates" / name
    if not copy.exists():
        shutil.copytree(crate, copy)
    for part in ("src", "specs", "proofs"):
        shutil.rmtree(copy / part, ignore_errors=True)
        if (crate / part).exists():
            shutil.copytree(crate / part, copy / part)


def proved(scratch: pathlib.Path, source: pathlib.Path, crate: str, may_wait: int = 0) -> pathlib.Path:
    """The program with this source, proved by `rt` with `crate` and the crates below it, all of which it may use.

    The merge gate reads no .rt or .antt file outside the crates. So the source is a file `NAME.rt.txt`, and its proofs
    are files `.antt.txt` in a folder `proofs` beside it: they get their names in the scratch folder. A second call with
    the same folder builds only what has changed.
    """
    subprocess.run([top / "prove", "--unpack"], check=True)
    lines = lines_up_to(crate)
    below = [name_of(line) for line in lines]
    for name in below:
        copy_crate(name, scratch)
    program = source.name.removesuffix(".rt.txt")
    folder = scratch / "crates" / program
    (folder / "src").mkdir(parents=True, exist_ok=True)
    shutil.copy(source, folder / "src" / "main.rt")
    for proof in (source.parent / "proofs").rglob("*.antt.txt"):
        to = folder / proof.relative_to(source.parent).with_suffix("")
        to.parent.mkdir(parents=True, exist_ok=True)
        shutil.copy(proof, to)
    waits = f" may_wait={may_wait}" if may_wait else ""
    line = f"{program}{waits}: {' '.join(reversed(below))} anyhow"
    (scratch / "crates.txt").write_text("\n".join([*lines, line, ""]))
    shutil.copy(top / "HANDLES", scratch / "HANDLES")
    rt("run", folder)
    return folder / "out" / program


def rt(command: str, folder: pathlib.Path) -> None:
    done = subprocess.run(["rt", command], cwd=folder, capture_output=True, text=True)
    if done.returncode != 0:
        sys.exit(done.stdout + done.stderr)


def compiled(source: pathlib.Path, program: pathlib.Path) -> pathlib.Path:
    """A plain Rust program of one file, as fast as `rustc -O` makes it for any processor of this kind."""
    program.parent.mkdir(parents=True, exist_ok=True)
    subprocess.run(["rustc", "--edition", "2021", "-O", "-o", program, source], check=True)
    return program


def plain_program(scratch: pathlib.Path) -> pathlib.Path:
    """The program in the folder `end_to_end/plain`, as fast as `rustc` makes it for this processor."""
    scratch.mkdir(parents=True, exist_ok=True)
    program = scratch / "plain"
    flags = ["--edition", "2021", "-C", "opt-level=3", "-C", "target-cpu=native", "-C", "panic=abort"]
    subprocess.run(["rustc", *flags, "-o", program, bench / "end_to_end" / "plain" / "main.rs"], check=True)
    return program
