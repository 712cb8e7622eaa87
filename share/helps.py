"""What pcompact prints as help, in its parts."""
import dataclasses
import pathlib
import re
import subprocess

OPTION = re.compile(r" +(?:(-\w), )?(--[\w-]+)(?: <(\w+)>)? {2,}(\S.*)")
ITEM = re.compile(r" +(\S+) {2,}(\S.*)")
RANGE = re.compile(r"\bfrom (\d+) to (\d+)\b")
CHOICES = re.compile(r"=WHEN: (\w+(?:, \w+)*)")
# A completion offers no more values than these.
MOST_VALUES = 64
SECONDS = 60


@dataclasses.dataclass(frozen=True)
class Option:
    # As `-h`, or empty.
    short: str
    # As `--help`.
    name: str
    # What the help calls its value, or empty where it takes none.
    value: str
    text: str

    @property
    def spellings(self) -> list[str]:
        return [it for it in (self.short, self.name) if it]

    @property
    def takes_file(self) -> bool:
        return self.value == "FILE"

    @property
    def choices(self) -> list[str]:
        """The words that it takes behind `=`, where it takes some or none."""
        found = CHOICES.search(self.text)
        return found[1].split(", ") if found else []

    @property
    def values(self) -> range:
        """All values that it takes, where these are a few numbers; empty where not."""
        if not self.value:
            return range(0)
        found = RANGE.search(self.text)
        values = range(int(found[1]), int(found[2]) + 1) if found else range(0)
        return values if len(values) <= MOST_VALUES else range(0)


@dataclasses.dataclass(frozen=True)
class Help:
    """The help of a command, or that of the program."""
    name: str
    about: str
    usage: str
    # The name and the text of each.
    arguments: list[tuple[str, str]]
    options: list[Option]
    # The lines of each other section, by its title.
    sections: dict[str, list[str]]

    @classmethod
    def of(cls, name: str, text: str) -> "Help":
        first, *blocks = text.strip("\n").split("\n\n")
        sections = {}
        for block in blocks:
            title, *lines = block.split("\n")
            sections[title] = lines
        usage = [title for title in sections if title.startswith("Usage: ")]
        if "\n" in first or len(usage) != 1:
            raise ValueError(f"the help of {name} doesn't begin with a line of what it does and one of its usage")
        # A long usage has further lines.
        whole = " ".join([usage[0], *(line.strip() for line in sections.pop(usage[0]))])
        return cls(name, first, whole.removeprefix("Usage: "),
                   [(name.strip("<>[]."), text) for name, text in items(sections.pop("Arguments:", []))],
                   [option_of(line) for line in sections.pop("Options:", [])], sections)


def option_of(line: str) -> Option:
    found = OPTION.fullmatch(line)
    if not found:
        raise ValueError(f"this line of help is no option: {line!r}")
    return Option(found[1] or "", found[2], found[3] or "", found[4])


def items(lines: list[str]) -> list[tuple[str, str]]:
    """The lines of a section, each a name and a text."""
    found = [ITEM.fullmatch(line) for line in lines]
    if not all(found):
        raise ValueError(f"a line of help has no name and text: {lines!r}")
    return [(it[1], it[2]) for it in found]


@dataclasses.dataclass(frozen=True)
class Helps:
    program: Help
    version: str
    # In the order of the program's help.
    commands: list[Help]

    @classmethod
    def of(cls, program: pathlib.Path) -> "Helps":
        whole = Help.of("pcompact", printed(program, "--help"))
        commands = [Help.of(name, printed(program, "help", name)) for name, _ in items(whole.sections["Commands:"])]
        return cls(whole, printed(program, "--version").strip(), commands)


def printed(program: pathlib.Path, *words: str) -> str:
    return subprocess.run([program, *words], check=True, capture_output=True, text=True, timeout=SECONDS).stdout
