"""The man page of pcompact and its completions, beside the help that the program prints."""
import pathlib
import re
import shutil
import subprocess
import tempfile
from collections.abc import Callable

from tests.support.program import TOP

SHARE = TOP / "share"
MADE = ("pcompact.1", "pcompact.bash", "_pcompact", "pcompact.fish")
SECONDS = 60

# What stands before the cursor, cut into words as bash does it, and what bash offers: `*` are the files of the folder, and `-`
# says that it offers none, since another value is due.
BASH_ROWS = [
    ("pcompact col", "collect"),
    ("pcompact ver", "verify"),
    ("pcompact help tim", "timeline"),
    ("pcompact help timeline ", ""),
    ("pcompact --v", "--version"),
    ("pcompact collect --st", "--stats"),
    ("pcompact collect --stats --st", ""),
    ("pcompact collect heap.pcheap --at", "--atomic"),
    ("pcompact collect ", "*"),
    ("pcompact collect --workers 2 ", "*"),
    ("pcompact collect a b --workers 6", "6 60 61 62 63 64"),
    ("pcompact collect a b --workers = 6", "6 60 61 62 63 64"),
    ("pcompact collect a b -w 6", "6 60 61 62 63 64"),
    ("pcompact collect a b --workers =", " ".join(map(str, range(1, 65)))),
    ("pcompact collect a b ", "-w --workers --region-log --allowance --atomic --json --stats --progress -v --verbose -h --help"),
    ("pcompact collect -- --st", ""),
    ("pcompact collect -- ", "*"),
    ("pcompact map --svg ", "*"),
    ("pcompact import --classes ", "*"),
    ("pcompact import --histogram ", "-"),
    ("pcompact import dump --st", "--stats"),
    ("pcompact map --width ", "-"),
    ("pcompact map --color = a", "auto always"),
    ("pcompact timeline --color =", "auto always never"),
    ("pcompact collect --progress =", "auto always never"),
    ("pcompact map --color = never ", "*"),
    ("pcompact map --color ", "*"),
    ("pcompact generate --version ", "1 2 3"),
    ("pcompact import --version ", "2 3"),
    ("pcompact upgrade --to ", "2 3"),
    ("pcompact generate --region-log 1", "10 11 12 13 14 15 16 17 18 19"),
    ("pcompact generate --seed ", "-"),
    ("pcompact board ", "--steps -h --help"),
    ("pcompact sweep --x", ""),
]
FILES = ["a heap.pcheap", "folder", "heap.pcheap"]
BASH = r"""
. "$1"
cd -- "$2" || exit
compopt() { [[ $1 != +o ]] || any=yes; }
while IFS= read -r typed; do
    read -ra COMP_WORDS <<<"$typed"
    [[ $typed != *' ' ]] || COMP_WORDS+=('')
    COMP_CWORD=$((${#COMP_WORDS[@]} - 1)) any=
    _pcompact
    [[ -z $any ]] || COMPREPLY+=(-)
    (IFS=/; echo "${COMPREPLY[*]}")
done
"""

FISH_ROWS = [
    ("pcompact col", ["collect"]),
    ("pcompact help tim", ["timeline"]),
    ("pcompact collect --st", ["--stats"]),
    ("pcompact collect ", FILES),
    ("pcompact collect map --af", []),
    ("pcompact collect a b --workers 6", ["6", "60", "61", "62", "63", "64"]),
    ("pcompact generate --version ", ["1", "2", "3"]),
    ("pcompact import --version ", ["2", "3"]),
    ("pcompact generate --seed ", []),
    ("pcompact import --classes ", FILES),
    ("pcompact import --histogram ", []),
]

Check = Callable[[bool, str], None]


def printed(words: list, **how) -> str:
    """What a command prints, on both streams."""
    how = {"stdout": subprocess.PIPE, "stderr": subprocess.STDOUT, **how}
    return subprocess.run(words, text=True, timeout=SECONDS, check=False, **how).stdout


def has(command: str) -> bool:
    """Whether a command is installed; says so where it isn't."""
    found = shutil.which(command) is not None
    if not found:
        print(f"{command} is not installed, and what needs it is left out")
    return found


def options_of(text: str) -> list[str]:
    """The options that a help lists."""
    listed = re.search(r"^Options:\n((?: .*\n)*)", text, re.MULTILINE)[1]
    return [word for line in listed.splitlines() for word in re.findall(r"(?<!\S)--?[\w-]+", line[:line.index("  ", 6)])]


def helps_of(program: pathlib.Path) -> dict[str, list[str]]:
    """The options of each command, and those of the program under an empty name."""
    whole = printed([program, "--help"])
    names = re.findall(r"^  ([a-z]+) ", re.search(r"^Commands:\n((?: .*\n)*)", whole, re.MULTILINE)[1], re.MULTILINE)
    helps = {"": options_of(whole)}
    for name in names:
        helps[name] = options_of(printed([program, name, "--help"])) if name != "help" else []
    return helps


def try_made(program: pathlib.Path, check: Check) -> None:
    """The files of share/ are those that the program's help makes."""
    with tempfile.TemporaryDirectory() as room:
        said = printed([SHARE / "make", program, room])
        check(said == "", f"share/make says {said!r}")
        for name in MADE:
            new = pathlib.Path(room) / name
            same = new.exists() and new.read_bytes() == (SHARE / name).read_bytes()
            check(same, f"share/{name} is not what `share/make PROGRAM` makes of the help of the program")


def part(text: str, begin: str, end: str) -> str:
    """The text behind the beginning, up to the end."""
    return text.partition(begin)[2].partition(end)[0]


def named_in(helps: dict[str, list[str]]) -> dict[str, Callable[[str, str], bool]]:
    """Of each file whether it names an option of a command."""
    page, bash, zsh, fish = ((SHARE / name).read_text() for name in MADE)
    page = page.replace(r"\-", "-")

    def in_page(name: str, option: str) -> bool:
        of_command = name != "" and option not in helps[""]
        return rf"\fB{option}\fP" in (part(page, f".SS {name}\n", "\n.S") if of_command else part(page, ".SH OPTIONS", ".SH"))

    def in_bash(name: str, option: str) -> bool:
        return option in part(bash, f"\n    {name or repr('')}) options='", "'").split()

    def in_zsh(name: str, option: str) -> bool:
        words = part(zsh, f"\n  {name})\n", ";;") if name else part(zsh, "_arguments -C", "&& ret=0")
        return re.search(rf"['{{,]{option}\+?[=\[,}}]", words) is not None

    def in_fish(name: str, option: str) -> bool:
        form = f"-s {option[1:]}" if len(option) == 2 else f"-l {option[2:]}"
        wanted = name or '""'
        return any(f" {form} " in line for line in fish.splitlines() if f"'__pcompact_is {wanted}'" in line)

    return dict(zip(MADE, (in_page, in_bash, in_zsh, in_fish)))


def try_named(helps: dict[str, list[str]], check: Check) -> None:
    """Each file names each command, and each option of a command where it speaks of that."""
    names = [name for name in helps if name]
    page, bash, zsh, fish = ((SHARE / name).read_text() for name in MADE)
    offered = re.search(r"_pcompact_words ([a-z ]+)$", bash, re.MULTILINE)[1].split()
    check(len(names) >= 15, f"the program has the commands {names}")
    for name in names:
        check(f"\n.SS {name}\n" in page, f"the man page doesn't name {name}")
        check(name in offered, f"bash doesn't complete {name}")
        check(f"    '{name}:" in zsh, f"zsh doesn't complete {name}")
        check(f"-a {name} " in fish, f"fish doesn't complete {name}")
    for file, is_named in named_in(helps).items():
        for name, options in helps.items():
            missing = [option for option in options if not is_named(name, option)]
            check(not missing, f"share/{file} doesn't name {missing} of pcompact {name}")


def make_files(room: str) -> pathlib.Path:
    folder = pathlib.Path(room)
    (folder / "folder").mkdir()
    (folder / "heap.pcheap").touch()
    (folder / "a heap.pcheap").touch()
    return folder


def try_bash(check: Check) -> None:
    with tempfile.TemporaryDirectory() as room:
        typed = "".join(f"{words}\n" for words, _ in BASH_ROWS)
        said = printed(["bash", "-c", BASH, "bash", SHARE / "pcompact.bash", make_files(room)], input=typed)
    found = said.splitlines()
    check(len(found) == len(BASH_ROWS), f"bash says {said!r}")
    for (words, wanted), offered in zip(BASH_ROWS, found):
        wanted = FILES if wanted == "*" else wanted.split()
        check(sorted(filter(None, offered.split("/"))) == sorted(wanted), f"bash completes {words!r} by {offered!r}")


def try_fish(check: Check) -> None:
    if not has("fish"):
        return
    said = printed(["fish", "--no-execute", SHARE / "pcompact.fish"])
    check(said == "", f"fish says of its completion {said!r}")
    with tempfile.TemporaryDirectory() as room:
        make_files(room)
        for words, wanted in FISH_ROWS:
            script = f"source '{SHARE}/pcompact.fish'; complete -C '{words}'"
            offered = printed(["fish", "--no-config", "-c", script], cwd=room)
            found = [line.split("\t")[0].rstrip("/") for line in offered.splitlines()]
            check(sorted(found) == sorted(wanted), f"fish completes {words!r} by {found}")


def try_zsh(check: Check) -> None:
    if has("zsh"):
        said = printed(["zsh", "-n", SHARE / "_pcompact"])
        check(said == "", f"zsh says of its completion {said!r}")


def try_page(check: Check) -> None:
    """The readers of man pages find nothing to warn of."""
    page = SHARE / "pcompact.1"
    for reader in (["groff", "-man", "-Tascii", "-ww", "-z"], ["mandoc", "-Tlint"]):
        if has(reader[0]):
            said = printed([*reader, page])
            check(said == "", f"{reader[0]} says of the man page {said!r}")


def try_examples(program: pathlib.Path, check: Check) -> None:
    """The examples of the man page, in order."""
    shown = re.findall(r"^pcompact .*$", part((SHARE / "pcompact.1").read_text(), ".SH EXAMPLES", ".SH"), re.MULTILINE)
    check(len(shown) >= 5, f"the man page has the examples {shown}")
    with tempfile.TemporaryDirectory() as room:
        shutil.copy(TOP / "examples" / "dumps" / "graph.hprof", pathlib.Path(room) / "heap.hprof")
        for line in shown:
            words = line.replace(r"\-", "-").split()
            done = subprocess.run([program, *words[1:]], cwd=room, capture_output=True, text=True, timeout=SECONDS, check=False)
            check(done.returncode == 0, f"{' '.join(words)} ends with status {done.returncode}: {done.stderr}")


def try_all(program: pathlib.Path, check: Check) -> None:
    try_made(program, check)
    try_named(helps_of(program), check)
    try_bash(check)
    try_fish(check)
    try_zsh(check)
    try_page(check)
    try_examples(program, check)
