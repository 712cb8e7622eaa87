#!/usr/bin/env python3
"""Runs `text` and `assemble`: the rows of docs/FORMATS.md, "Heap text".

usage: tests/cli/test_text.py [PROGRAM]
"""
import dataclasses
import fcntl
import functools
import os
import pathlib
import resource
import subprocess
import sys
import termios

# Finds the package `tests` from any folder, and writes nothing beside its modules.
sys.dont_write_bytecode = True
sys.path.insert(0, str(pathlib.Path(__file__).resolve().parents[2]))
from tests.models.generated_heap import Wanted, generated
from tests.models.heap_text import text_of
from tests.models.image import MAX_REGIONS, MAX_WORDS, Image, decode, encode, header
from tests.support.cases import BASE, try_groups
from tests.support.program import TOP, Answer, Tried, fault, usage

FULL = pathlib.Path("/dev/full")
FAULT_13 = "13 input or output"
# The program reads this number of bytes of a text at a time.
PIECE = 65536
ROOTED = (TOP / "examples" / "rooted.pcheap").read_bytes()
HEAP = """\
@0 object 3 refs @5 @20
@3 dead 2 of 999
@5 object 4 refs @12 data 107 108
@9 dead 3 of 999
@12 object 2 refs @0
@14 dead 6 of 999
@20 object 10 refs @20 null @5 @12 @0 null @20 @5 data 129
@30 dead 2 of 999
"""
BASE_TEXT = "heap version 1\nregion-log 3\nwords 32\nallowance 0\n" + HEAP
ROOTED_TEXT = "heap version 2\nregion-log 3\nwords 32\nallowance 0\nroots @20 null\n" + HEAP
BASE_COUNTS = "words 32 roots 0 live 4\n"
ROOTED_COUNTS = "words 32 roots 2 live 4\n"
OLD = b"what stood there before" * 40
REFERENCE = "`null`, or `@` and an address below 32"
NUMBER = "a number below 2^64, decimal and without leading zeros"
VERSION = "`heap version 1`, `heap version 2` or `heap version 3`"
REGION_LOG = "`region-log K`, where K is 3 to 16"
WORDS = "`words N`, where N is 1 to 4194304 and makes whole regions, 16384 at most"
LARGE_WORDS = "`words N`, where N is 1 to 68719476736 and makes whole regions, 1048576 at most"
ALLOWANCE = "`allowance M`, where M is a number below 2^64"
ROOTS = "`roots`, and behind it `null` or `@` and an address for each root"
DEAD = "`of` and a number, or `words` and numbers, behind the number of dead words"
# A heap without objects and roots, whose words all differ.
NO_OBJECTS = encode(Image(2, 3, 2**64 - 1, [*range(7), 2**64 - 1], []))
NO_OBJECTS_TEXT = """\
heap version 2
region-log 3
words 8
allowance 18446744073709551615
roots
@0 dead 8 words 0 1 2 3 4 5 6 18446744073709551615
"""
# A heap of one region, all of whose words are dead; and one of two regions of the largest size of version 1, with an object across
# their border.
DEAD_TEXT = "heap version 1\nregion-log 3\nwords 8\nallowance 0\n@0 dead 8 of 7\n"
CROSSING = encode(Image(1, 16, 0, [*[7] * 65535, header(2, 0), 5, *[0] * 65535], [65535]))
CROSSING_TEXT = """\
heap version 1
region-log 16
words 131072
allowance 0
@0 dead 65535 of 7
@65535 object 2 data 5
@65537 dead 65535 of 0
"""

# In the text of the base heap with roots: what is changed into what, the line that is reported, and what it says.
MISTAKES = [
    ("heap version 2", "heap version 4", 1, VERSION),
    ("heap version 2", "heap  version 2", 1, VERSION),
    ("region-log 3", "region-log 2", 2, REGION_LOG),
    ("region-log 3", "region-log 17", 2, REGION_LOG),
    ("version 2\nregion-log 3", "version 3\nregion-log 21", 2, REGION_LOG.replace("16", "20")),
    ("version 2\nregion-log 3\nwords 32", "version 3\nregion-log 3\nwords 8388616", 3, LARGE_WORDS),
    ("version 2\nregion-log 3\nwords 32", "version 3\nregion-log 20\nwords 68720525312", 3, LARGE_WORDS),
    *(("words 32", f"words {number}", 3, WORDS) for number in ("0", "36", "032", "32\r", "4194312", "131080")),
    ("allowance 0", "allowance -1", 4, ALLOWANCE),
    ("allowance 0", "allowance", 4, ALLOWANCE),
    ("allowance 0", "allowance 18446744073709551616", 4, ALLOWANCE),
    ("roots @20", "root @20", 5, ROOTS),
    ("roots @20", "roots 20", 5, REFERENCE),
    ("roots @20", "roots @32", 5, REFERENCE),
    ("roots @20 null", "roots @20 null ", 5, REFERENCE),
    ("null\n", "null" + " null" * 31 + "\n", 5, "32 roots at most"),
    *(("@0 object", f"{begin} object", 6, "a line that begins with `@0`") for begin in ("@1", "0", "@00", "\n@0")),
    ("@0 object", "@0 thing", 6, "`object` or `dead` behind the address"),
    ("@0 object 3", "@0 object 0", 6, "the size of the object, header included: 1 to 32"),
    ("@0 object 3", "@0 object 33", 6, "the size of the object, header included: 1 to 32"),
    ("@0 object 3 refs", "@0 object 3 links", 6, "`refs` or `data` behind the size"),
    ("@0 object 3", "@0 object 4", 6, "3 references and data words in all"),
    *(("refs @5 @20", f"refs{fields}", 6, REFERENCE)
      for fields in (" @5 @32", " @5  @20", " @5 @20 ", " @5 20", " data 6 21", "")),
    *(("data 107 108", f"data{numbers}", 8, NUMBER)
      for numbers in (" 107 0108", " 107 +108", " 107 18446744073709551616", "")),
    ("2 of 999\n@5", "1 of 999\n@4 dead 1 of 999\n@5", 8, "an object at @4, since dead words in a row have one line"),
    ("@3 dead 2", "@3 dead 0", 7, "the number of dead words: 1 to 29"),
    ("@3 dead 2", "@3 dead 30", 7, "the number of dead words: 1 to 29"),
    ("2 of 999", "2 all 999", 7, DEAD),
    ("2 of 999", "2", 7, DEAD),
    ("2 of 999", "2 of", 7, NUMBER),
    ("2 of 999", "2 words 999", 7, "2 numbers behind `words`"),
    ("2 of 999", "2 words 999 999", 7, "`of` and one number, since the words are equal"),
    ("2 of 999", "2 of 999 999", 7, "the end of the line"),
    ("@30 dead 2 of 999\n", "", 13, "a line that begins with `@30`"),
    ("@30 dead 2 of 999\n", "@30 dead 2 of 999", 13, "a newline at the end of the line"),
    ("@30 dead 2 of 999\n", "@30 dead 2 of 999\n@32 dead 1 of 0\n", 14, "no more lines, since all words are there"),
    ("@30 dead 2 of 999\n", "@30 dead 2 of 999\n\n", 14, "no more lines, since all words are there"),
    ("refs @0\n", "refs @1\n", 6, "a valid object, where this is fault 7 header at 1"),
    ("roots @20 null", "roots @20 @3", 7, "a valid object, where this is fault 7 header at 3"),
    ("roots @20 null", "roots null", 6, "dead words, since nothing leads to @0 from the roots"),
    ("@20 @5 data 129\n@30 dead 2 of 999", f"@20 @30 data 129\n@30 dead 2 words {header(2, 0)} 5", 13,
     "an object at @30, to which a root or a reference leads"),
]

# Texts that end early: the line that they lack, and what it should be.
BEGINNINGS = [
    ("heap version 2\n", 2, REGION_LOG),
    ("heap version 2\nregion-log 3\n", 3, WORDS),
    ("heap version 2\nregion-log 3\nwords 8\n", 4, ALLOWANCE),
    ("heap version 2\nregion-log 3\nwords 8\nallowance 0\n", 5, ROOTS),
    ("heap version 1\nregion-log 3\nwords 8\nallowance 0\n", 5, "a line that begins with `@0`"),
]


def mistake(line: int, expected: str) -> Answer:
    return Answer(1, err=f"pcompact: TEXT line {line}: expected {expected}\n", made={"made": None})


def try_both_ways(tried: Tried) -> None:
    for content, text, counts in ((BASE, BASE_TEXT, BASE_COUNTS), (ROOTED, ROOTED_TEXT, ROOTED_COUNTS),
                                  (NO_OBJECTS, NO_OBJECTS_TEXT, "words 8 roots 0 live 0\n"),
                                  (encode(Image(1, 3, 0, [7] * 8, [])), DEAD_TEXT, "words 8 roots 0 live 0\n"),
                                  (CROSSING, CROSSING_TEXT, "words 131072 roots 0 live 1\n")):
        tried.write("heap", content)
        tried.run("text heap", Answer(0, text))
        tried.run("text --verbose heap", Answer(0, text))
        tried.run("text /dev/stdin", Answer(0, text), input=content)
        tried.write("lines", text)
        for flags in ("", " --atomic", " --verbose", " --atomic --verbose"):
            tried.run(f"assemble lines made{flags}", Answer(0, counts, made={"made": content}))
        tried.run("assemble --atomic lines lines", Answer(0, counts))
        if tried.read("lines") != content:
            tried.is_wrong("an image doesn't take the place of its text")
        tried.run("assemble /dev/stdin made", Answer(0, counts, made={"made": content}), input=text.encode())


def try_mistakes(tried: Tried) -> None:
    for old, new, line, expected in MISTAKES:
        tried.write("lines", ROOTED_TEXT.replace(old, new, 1))
        for flags in ("", " --atomic"):
            tried.run(f"assemble lines made{flags}", mistake(line, expected))
    tried.write("lines", BASE_TEXT.replace("refs @0\n", "refs @3\n"))
    tried.run("assemble lines made", mistake(9, "a valid object, where this is fault 9 reference at 12 field 0"))
    tried.write("lines", ROOTED_TEXT.replace("roots @20", "roots @30").replace("2 of 999\n", f"2 words {header(2, 0)} 5\n"))
    tried.run("assemble lines made", mistake(6, "dead words, since nothing leads to @0 from the roots"))
    tried.write("lines", ROOTED_TEXT.replace("null\n", "@30\n", 1).replace("@30 dead 2 of 999", f"@30 dead 2 words {header(2, 0)} 5"))
    tried.run("assemble lines made", mistake(13, "an object at @30, to which a root or a reference leads"))
    for text, line, expected in [("", 1, VERSION), *BEGINNINGS]:
        tried.write("lines", text)
        tried.run("assemble lines made", mistake(line, expected))
    tried.write("lines", NO_OBJECTS_TEXT.replace("roots", "roots" + " null" * 8))
    made = encode(dataclasses.replace(decode(NO_OBJECTS), tail=[0] * 8))
    tried.run("assemble lines made", Answer(0, "words 8 roots 8 live 0\n", made={"made": made}))
    tried.write("lines", NO_OBJECTS_TEXT.replace("roots", "roots" + " null" * 9))
    tried.run("assemble lines made", mistake(5, "8 roots at most"))
    tried.write("lines", OLD)
    tried.run("assemble lines made", mistake(1, "a newline at the end of the line"))
    told = "pcompact: TEXT line 1: expected a newline at the end of the line\n"
    tried.run("assemble lines made --verbose", Answer(1, err=f"{told}pcompact: file TEXT lines\n", made={"made": None}))
    tried.write("kept", OLD)
    tried.run("assemble lines kept", Answer(1, err=told))
    if tried.read("kept") != OLD:
        tried.is_wrong("a refused text changes the file for the image")


def try_files(tried: Tried) -> None:
    tried.write("lines", BASE_TEXT)
    (tried.folder / "a_folder").mkdir(exist_ok=True)
    nothing = {"made": None}
    for name in ("nothing", "a_folder", "/proc/self/mem"):
        tried.run(f"text {name}", fault(FAULT_13))
        tried.run(f"assemble {name} made", fault(FAULT_13, nothing))
    for name in ("a_folder", "nothing/made", "/dev/full"):
        tried.run(f"assemble lines {name}", fault(FAULT_13))
    for name in ("lines", "./lines"):
        tried.run(f"assemble lines {name}", Answer(2, err="pcompact: same file\n"))
    tried.run("assemble lines a_folder --atomic", Answer(2, err="pcompact: not a regular file\n"))
    tried.write("heap", BASE + b"\0")
    tried.run("text heap", fault("10 trailing bytes"))
    tried.run("text heap --verbose", Answer(1, err="pcompact: fault 10 trailing bytes\npcompact: file IMAGE heap\n"))
    tried.write("heap", BASE)
    with FULL.open("wb") as full:
        tried.run("text heap", fault(FAULT_13), stdout=full)
        tried.run("assemble lines made", fault(FAULT_13, {"made": BASE}), stdout=full)
        tried.run("assemble lines made --atomic", fault(FAULT_13, nothing), stdout=full)


def try_words(tried: Tried) -> None:
    missing = "error: the following required arguments were not provided:\n"
    tried.run("text", usage(f"{missing}  <IMAGE>\n"))
    tried.run("assemble", usage(f"{missing}  <TEXT>\n  <IMAGE>\n"))
    tried.run("assemble lines", usage(f"{missing}  <IMAGE>\n"))
    tried.run("text heap made", usage("error: unexpected argument 'made' found\n"))
    tried.run("assemble lines made more", usage("error: unexpected argument 'more' found\n"))
    tried.run("text heap --atomic", usage("error: unexpected argument '--atomic' found\n"))


def try_largest(tried: Tried) -> None:
    """A heap of a million words goes both ways and is the same."""
    content = encode(generated(Wanted(1 << 20, 16, 50, 25, 2, 7, 3))[0])
    tried.write("heap", content)
    with (tried.folder / "lines").open("wb") as lines:
        tried.run("text heap", Answer(0), stdout=lines)
    tried.run("assemble lines made", Answer(0, None, made={"made": content}))


def try_image(tried: Tried, image: Image) -> int:
    """The text that the model makes of an image goes both ways. How long it is."""
    content, text = encode(image), text_of(image).encode()
    tried.write("heap", content)
    with (tried.folder / "printed").open("wb") as printed:
        tried.run("text heap", Answer(0), stdout=printed)
    if tried.read("printed") != text:
        tried.is_wrong(f"the text of {len(image.words)} words isn't that of the model")
    tried.write("lines", text)
    counts = f"words {len(image.words)} roots {len(image.roots())} live {len(image.live())}\n"
    # The image, three times the text, and a little more.
    bound = functools.partial(limit_memory, len(content) + 3 * len(text) + (64 << 20))
    tried.run("assemble lines made", Answer(0, counts, made={"made": content}), preexec_fn=bound)
    return len(text)


def try_limits(tried: Tried) -> None:
    """The most regions and the most words, each of 64 bits, of a live object and behind it, in a text of over 80 MB."""
    try_image(tried, generated(Wanted(8 * MAX_REGIONS, 3, 50, 25, 2, 7, 3))[0])
    try_image(tried, generated(Wanted(262144, 17, 50, 25, 3, 7, 3))[0])
    half = MAX_WORDS // 2
    words = [header(half, 0), *range(2**64 - half, 2**64 - 1), *range(2**64 - 1 - half, 2**64 - 1)]
    if try_image(tried, Image(2, 16, 0, words, [1])) < 80_000_000:
        tried.is_wrong("the longest text isn't long")


def limit_memory(most: int) -> None:
    """Limits the address space of the process that is about to begin, in bytes."""
    resource.setrlimit(resource.RLIMIT_AS, (most, most))


def try_endless(tried: Tried) -> None:
    """A text without an end is refused at its first wrong line, in little memory."""
    bound = functools.partial(limit_memory, 448 << 20)
    with subprocess.Popen(["yes"], stdout=subprocess.PIPE) as lines:
        tried.run("assemble /dev/stdin made", mistake(1, VERSION), stdin=lines.stdout, preexec_fn=bound)
        lines.kill()
    tried.run("assemble /dev/zero made", mistake(1, "a newline at the end of the line"), preexec_fn=bound)
    try_first_piece(tried)


def try_first_piece(tried: Tried) -> None:
    """A pipe that stays open is read no further than the first piece, where the first line is wrong."""
    for byte, expected in ((b"\0", "a newline at the end of the line"), (b"\n", VERSION)):
        reading, writing = os.pipe()
        fcntl.fcntl(writing, fcntl.F_SETPIPE_SZ, 4 * PIECE)
        os.write(writing, byte * 4 * PIECE)
        tried.run("assemble /dev/stdin made", mistake(1, expected), stdin=reading)
        left = int.from_bytes(fcntl.ioctl(reading, termios.FIONREAD, bytes(4)), sys.byteorder)
        if left != 3 * PIECE:
            tried.is_wrong(f"of an endless text {4 * PIECE - left} bytes are read")
        os.close(writing)
        os.close(reading)


GROUPS = (try_both_ways, try_mistakes, try_files, try_words, try_largest, try_limits, try_endless)

if __name__ == "__main__":
    sys.exit(try_groups(GROUPS))
