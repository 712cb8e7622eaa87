"""The man page of pcompact."""
import re
import textwrap

from helps import Help, Helps, Option

# When the texts below were last changed.
DATE = "2026-12-01"
WIDTH = 78
ESCAPES = {"\\": r"\e", "^": r"\(ha", "~": r"\(ti", "`": r"\(ga"}

DESCRIPTION = """\
*pcompact* compacts heap images: files with the heap of a garbage-collected program. It is a parallel mark-compact collector,
modelled on the full collection of OpenJDK's Parallel Compact collector. Up to 64 worker threads share the regions of the heap;
live objects slide to its low end, in place and in order, and every reference is redirected. It is proved that the image that is
written is the compaction of the one that was read.

*import*, *generate*, *assemble* and *upgrade* make images. *summary*, *order*, *text* and *map* show an image, and what a
collection will do. *collect* and *record* collect one, and *verify* checks a collection. *replay* and *timeline* follow the
schedule that *record* writes.

Options may come before or after the arguments of a command. After *--* every word is an argument.
"""

STREAMS = """\
*-* in place of a file is standard input where the file is read, and standard output where it is written; _./-_ is a file of that
name. At most one file is read so, and one written. What a command prints goes to standard error if it writes a file to standard
output.
"""

FILES = """\
A fault may leave the files to write empty or incomplete. With *--atomic* new files _.pcompact-N.tmp_ are made beside them, and
are renamed only once the command has succeeded. If the command is killed a new file may stay, except by Ctrl-C at a terminal; the
next command with *--atomic* that writes in the folder removes it, if only its user can rename files there.
"""

ENVIRONMENT = [
    ("GLIBC_TUNABLES", "Settings of the C library. If it isn't set, the script that starts the program requests huge pages by it."),
    ("LC_ALL, LC_CTYPE, LANG", "*map* and *timeline* draw with blocks if the first of these that is set and not empty names "
                               "UTF-8, and else with letters."),
    ("COLUMNS, LINES", "The size of a terminal, which *map* and *timeline* fill, and which cuts the line of progress. The script that "
                       "starts the program sets both at a terminal if the first isn't set."),
    ("NO_COLOR, TERM", "*map* and *timeline* use no colours on a terminal if the first isn't empty, or the second is dumb."),
]

LAUNCHER_STATUS = ("70", "the script that starts the program in the repository can't build it")

EXAMPLES = [
    ("Convert the heap dump of a Java virtual machine, and draw the image and its compaction:",
     ["pcompact import heap.hprof heap.pcheap", "pcompact map heap.pcheap --after"]),
    ("Collect by four workers, and check the result:",
     ["pcompact collect heap.pcheap after.pcheap --workers 4 --atomic", "pcompact verify heap.pcheap after.pcheap"]),
    ("Collect in place, and print the time of each phase:",
     ["pcompact collect heap.pcheap heap.pcheap --workers 4 --atomic --stats"]),
]

SEE_ALSO = """\
*jcmd*(1), *jmap*(1), *mallopt*(3)

The folder _share/doc/pithondlu_ of the installation, or _docs_ of the repository, has all of this page and more in _COMMANDS.md_, the
formats of all files and the faults in _FORMATS.md_, the definitions in _HEAP.md_, what is proved in _PROMISES.md_, and an example of
each command in _TOUR.md_.
"""


def escaped(text: str) -> str:
    return "".join(ESCAPES.get(it, it) for it in text)


def literal(text: str) -> str:
    """What is typed as it stands here, whose dashes are no hyphens."""
    return escaped(text).replace("-", r"\-")


def bold(text: str) -> str:
    return rf"\fB{literal(text)}\fP"


def italic(text: str) -> str:
    return rf"\fI{literal(text)}\fP"


def line_of(text: str) -> str:
    """A line of text that isn't taken for a request."""
    return rf"\&{text}" if text.startswith((".", "'")) else text


def wrapped(text: str) -> list[str]:
    lines = textwrap.wrap(text, WIDTH, break_long_words=False, break_on_hyphens=False)
    return [line_of(line) for line in lines]


def prose(text: str) -> list[str]:
    """Lines of a text in which *this* is bold and _this_ italic. A blank line ends a paragraph."""
    lines = []
    for paragraph in text.strip("\n").split("\n\n"):
        marked = re.sub(r"\*(\S+?)\*", lambda it: bold(it[1]), escaped(" ".join(paragraph.split())))
        marked = re.sub(r"(?<!\w)_(\S+?)_(?!\w)", lambda it: italic(it[1]), marked)
        lines += [".PP", *wrapped(marked)]
    return lines[1:]


def sentence(text: str) -> list[str]:
    """A line of help, as a sentence."""
    return wrapped(re.sub(r"--[a-z-]+|(?<!\S)-(?!\S)", lambda it: bold(it[0]), escaped(text.rstrip(".") + ".")))


def item(head: str, lines: list[str]) -> list[str]:
    return [".TP", head, *lines]


def option_head(option: Option) -> str:
    value = f" {italic(option.value)}" if option.value else ""
    return ", ".join(bold(it) for it in option.spellings) + value


def synopsis(usage: str) -> str:
    """A usage, in which what stands for another word is italic."""
    def marked(word: str) -> str:
        return re.sub(r"<?(\w+)>?", lambda it: italic(it[1]), word) if word[0] in "[<" else bold(word)
    return " ".join(marked(word) for word in usage.split())


def example(lines: list[str]) -> list[str]:
    return [".PP", ".RS 4", ".EX", *(literal(line.strip()) for line in lines), ".EE", ".RE"]


def command(it: Help) -> list[str]:
    lines = [f".SS {it.name}", synopsis(it.usage), ".PP", *sentence(it.about)]
    for name, text in it.arguments:
        lines += item(italic(name), sentence(text))
    for option in it.options:
        if option.name != "--help":
            lines += item(option_head(option), sentence(option.text))
    for title, shown in it.sections.items():
        lines += [".PP", title, *example(shown)]
    return lines


def exit_status(program: Help) -> list[str]:
    lines = []
    for number, text in [line.split(None, 1) for line in program.sections["Exit status:"]] + [LAUNCHER_STATUS]:
        lines += item(bold(number), sentence(text[0].upper() + text[1:]))
    return lines


def page(helps: Helps) -> str:
    about = helps.program.about
    lines = [
        r'.\" Made by share/make from the help of the program.',
        f'.TH PCOMPACT 1 "{DATE}" "{helps.version}" "User Commands"',
        ".SH NAME", rf"pcompact \- {escaped(about[0].lower() + about[1:])}",
        ".SH SYNOPSIS", f"{bold('pcompact')} {italic('COMMAND')} [{italic('OPTIONS')}] [{italic('ARGUMENTS')}]",
        ".SH DESCRIPTION", *prose(DESCRIPTION),
        ".SH OPTIONS", "Each command takes the first of these too.",
    ]
    for option in helps.program.options:
        lines += item(option_head(option), sentence(option.text))
    lines += [".SH COMMANDS"]
    for it in helps.commands:
        lines += command(it)
    lines += [".SH STREAMS", *prose(STREAMS), ".SH EXIT STATUS", *exit_status(helps.program), ".SH ENVIRONMENT"]
    for names, text in ENVIRONMENT:
        lines += item(", ".join(bold(name) for name in names.split(", ")), prose(text))
    lines += [".SH FILES", *prose(FILES), ".SH EXAMPLES"]
    for text, shown in EXAMPLES:
        lines += [*prose(text), *example(shown), ".PP"]
    lines[-1:] = [".SH SEE ALSO", *prose(SEE_ALSO)]
    return "\n".join(lines) + "\n"
