"""The built program as its users call it, and what it must answer."""
import dataclasses
import pathlib
import re
import shutil
import subprocess
import sys
from collections.abc import Callable

TOP = pathlib.Path(__file__).resolve().parents[2]
# What is loaded before the program makes its calls fail, or counts them.
PRELOAD = TOP / "tests" / "faults" / "preload"
SECONDS = 60


def built() -> pathlib.Path:
    """The program that fits the sources as they stand."""
    words = ["sh", "-c", 'top=$1; . "$top/sources.sh"; program_path', "sh", TOP]
    done = subprocess.run(words, capture_output=True, text=True)
    if done.returncode:
        sys.exit(f"There is no program to try: {done.stderr.strip()}; ./prove builds it.")
    return pathlib.Path(done.stdout.removesuffix("\n"))


def launcher() -> list[str]:
    """The words before those of a program that run it as the launcher and the installed script do: with what both set."""
    script = (TOP / "pcompact").read_text()
    settings = [re.search(it, script, re.MULTILINE | re.DOTALL)[0] for it in ("^trap '' XFSZ$", "^heaps=.*^export GLIBC_TUNABLES$")]
    return ["sh", "-c", "\n".join([*settings, 'exec "$@"']), "sh"]


@dataclasses.dataclass(frozen=True)
class Answer:
    status: int
    # Any text where it is None.
    out: str | None = ""
    # All of it, or what all of it matches. Details may follow a line on an error, unless `is_whole`.
    err: str | re.Pattern = ""
    # Of each file that the program makes its bytes, or None where it must not be there.
    made: dict[str, bytes | None] = dataclasses.field(default_factory=dict)
    is_whole: bool = False


def fault(text: str, made: dict[str, bytes | None] | None = None) -> Answer:
    return Answer(1, err=f"pcompact: fault {text}\n", made=made or {})


def differs(text: str) -> Answer:
    return Answer(1, err=f"pcompact: differs {text}\n")


def usage(text: str) -> Answer:
    return Answer(2, err=text)


def outside(workers: int | str, made: dict[str, bytes | None] | None = None) -> Answer:
    """What is said of so many workers, where 1 to 64 are allowed."""
    return Answer(2, err=f"error: invalid value '{workers}' for '--workers <n>': {workers} is not in 1..=64\n", made=made or {})


class Tried:
    """A copy of the program in a folder, and how often it was tried and wrong. What is wrong is printed at once."""

    def __init__(self, program: pathlib.Path, folder: pathlib.Path, tell: Callable[[str], None] = print):
        self.program = folder / "pcompact"
        self.folder = folder
        self.tell = tell
        self.count = 0
        self.wrong = 0
        # Anybody may call it there.
        folder.chmod(0o755)
        shutil.copy(program, self.program)
        self.program.chmod(0o755)

    def write(self, name: str, content: bytes | str) -> None:
        (self.folder / name).write_bytes(content.encode() if isinstance(content, str) else content)

    def read(self, name: str) -> bytes:
        return (self.folder / name).read_bytes()

    def run(self, words: str | list[str], answer: Answer, **how) -> bool:
        """Runs the program on words, or on those of a text, and compares what it answers. Whether that is right.

        `by` are words of another command, which runs it.
        """
        words = words.split() if isinstance(words, str) else words
        for name in answer.made:
            (self.folder / name).unlink(missing_ok=True)
        streams = {"stdin": subprocess.DEVNULL, "stdout": subprocess.PIPE, "stderr": subprocess.PIPE, **how}
        given, by = streams.pop("input", None), streams.pop("by", [])
        if given is not None:
            streams["stdin"] = subprocess.PIPE
        self.count += 1
        with subprocess.Popen([*by, self.program, *words], cwd=self.folder, **streams) as process:
            try:
                texts = process.communicate(given, SECONDS)
                found = self.differences(answer, subprocess.CompletedProcess(words, process.returncode, *texts))
            except subprocess.TimeoutExpired:
                found = [f"doesn't end within {SECONDS} seconds; its threads: {states_of(process.pid)}"]
                process.kill()
        for what in found:
            self.is_wrong(f"pcompact {' '.join(map(str, words))}: {what}")
        return not found

    def is_wrong(self, what: str) -> None:
        self.wrong += 1
        self.tell(what)

    def differences(self, answer: Answer, done: subprocess.CompletedProcess) -> list[str]:
        found = []
        if done.returncode != answer.status:
            found.append(f"status {done.returncode} and not {answer.status}")
        if done.stdout is not None and answer.out is not None and done.stdout != answer.out.encode():
            found.append(f"standard output is {done.stdout!r} and not {answer.out!r}")
        if done.stderr is not None and not is_told(done.stderr.decode(errors="replace"), answer):
            found.append(f"standard error is {done.stderr!r} and not {answer.err!r}")
        for name, content in answer.made.items():
            file = self.folder / name
            if (file.read_bytes() if file.exists() else None) != content:
                found.append(f"{name} has another content")
        return found


def states_of(process: int) -> str:
    """What each thread of a process is at, as Linux tells it: R runs, S sleeps, D waits for a device."""
    stats = pathlib.Path(f"/proc/{process}/task").glob("*/stat")
    return " ".join(stat.read_text().rpartition(")")[2].split()[0] for stat in stats)


# A line that follows that of an error.
DETAIL = re.compile(r"pcompact: (?:file [A-Z]+ .*|standard output|(?:call|reason|reply|hint) .+)\n")


def without_details(err: str) -> str:
    """The first line, where only details follow it."""
    first, *more = err.splitlines(keepends=True) or [""]
    return first if all(map(DETAIL.fullmatch, more)) else err


def owed(err: bytes) -> bytes:
    """What stands on standard error, without details."""
    return without_details(err.decode(errors="surrogateescape")).encode(errors="surrogateescape")


END_OF_USAGE = "\nFor more information, try '--help'.\n"


def is_told(err: str, answer: Answer) -> bool:
    """Whether standard error has the text. A text of usage that is given without its end must begin so."""
    if isinstance(answer.err, re.Pattern):
        return any(map(answer.err.fullmatch, {err, err if answer.is_whole else without_details(err)}))
    if answer.status and answer.err.count("\n") == 1 and not answer.is_whole:
        err = without_details(err)
    is_begun = answer.status == 2 and answer.err.startswith("error: ") and not answer.err.endswith(END_OF_USAGE)
    return err.startswith(answer.err) and err.endswith(END_OF_USAGE) if is_begun else err == answer.err
