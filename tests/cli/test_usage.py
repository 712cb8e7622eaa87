#!/usr/bin/env python3
"""The whole texts of help, and of what the program says of words that are no command.

usage: tests/cli/test_usage.py [PROGRAM]
"""
import pathlib
import sys

# Finds the package `tests` from any folder, and writes nothing beside its modules.
sys.dont_write_bytecode = True
sys.path.insert(0, str(pathlib.Path(__file__).resolve().parents[2]))
from tests.support.cases import try_groups
from tests.support.program import Answer, Tried, usage

HELP = """\
Parallel mark-compact collection of heap images

Usage: pcompact <COMMAND>

Commands:
  collect   Collect a heap image and write the compacted one
  verify    Compare a heap image with the compaction of another
  summary   Print the plan of a collection, region by region
  order     Print how many workers a collection can keep busy
  map       Draw a heap image, also as its collection leaves it
  text      Print a heap image as text
  assemble  Convert a heap text to a heap image
  record    Collect a heap image and record what each worker does
  replay    Replay a schedule word by word and print it with all replies
  timeline  Draw which worker has which region along the lines of a schedule
  upgrade   Convert a heap image to version 2 or 3, with roots
  import    Convert the heap dump of a Java virtual machine to a heap image
  compare   Compare the heap dumps before and after a collection
  generate  Generate a heap image from a seed, for benchmarks and experiments
  reduce    Make a heap image smaller by one step; pcompact shrink takes many
  board     Schedule three regions among two workers, and count claims
  help      Print this message or the help of the given subcommand(s)

Options:
  -h, --help     Print help
  -V, --version  Print version

Streams:
  -  for a file: standard input where it is read, standard output where written

Exit status:
  0    success, also of help and version
  1    a fault, images that differ, a bad dump or text; standard error says why
  2    invalid usage; standard error says why
  3    of compare alone: not comparable; its 1 is a broken order or a hole
  130  interrupted by Ctrl-C; other signals end it by 128 and their number
  141  nobody reads standard output
"""

BOARD_HELP = """\
Schedule three regions among two workers, and count claims

Usage: pcompact board [OPTIONS]

Options:
      --steps  Print the calls of one order first, with their answers
  -h, --help   Print help

Example:
  pcompact board --steps
"""

SUMMARY_HELP = """\
Print the plan of a collection, region by region

Usage: pcompact summary [OPTIONS] <IMAGE>

Arguments:
  <IMAGE>  A heap image; - is standard input

Options:
      --heading         Print column names even if output is no terminal
      --region-log <k>  Read IMAGE with regions of 2^k words, k from 3 to 20
      --allowance <m>   Read IMAGE as if its prefix might keep m dead words
      --json            Print a JSON object
      --progress        Show progress (or --progress=WHEN: auto, always, never)
  -v, --verbose         Print details of errors (default; --verbose=never: none)
  -h, --help            Print help

Example:
  pcompact summary heap.pcheap
"""

COLLECT_HELP = """\
Collect a heap image and write the compacted one

Usage: pcompact collect [OPTIONS] <IMAGE> <OUT>

Arguments:
  <IMAGE>  A heap image; - is standard input
  <OUT>    Where to write the compacted image; - is standard output

Options:
  -w, --workers <n>     Worker threads, from 1 to 64 (default: the processors)
      --region-log <k>  Read IMAGE with regions of 2^k words, k from 3 to 20
      --allowance <m>   Read IMAGE as if its prefix might keep m dead words
      --atomic          Replace files only once the command has succeeded
      --json            Print a JSON object
      --stats           Print timings and peak memory to stderr
      --progress        Show progress (or --progress=WHEN: auto, always, never)
  -v, --verbose         Print details of errors (default; --verbose=never: none)
  -h, --help            Print help

Example:
  pcompact collect heap.pcheap out.pcheap --workers 4
"""

RECORD_HELP = """\
Collect a heap image and record what each worker does

Usage: pcompact record [OPTIONS] <IMAGE> <OUT> <SCHEDULE>

Arguments:
  <IMAGE>     A heap image; - is standard input
  <OUT>       Where to write the compacted image; - is standard output
  <SCHEDULE>  Where to write the schedule; - is standard output

Options:
  -w, --workers <n>     Worker threads, from 1 to 64 (default: the processors)
      --turns           Let workers take turns, so that each has some work
      --region-log <k>  Read IMAGE with regions of 2^k words, k from 3 to 20
      --allowance <m>   Read IMAGE as if its prefix might keep m dead words
      --atomic          Replace files only once the command has succeeded
      --stats           Print timings and peak memory to stderr
      --progress        Show progress (or --progress=WHEN: auto, always, never)
  -v, --verbose         Print details of errors (default; --verbose=never: none)
  -h, --help            Print help

Example:
  pcompact record heap.pcheap out.pcheap schedule --workers 4
"""

REPLAY_HELP = """\
Replay a schedule word by word and print it with all replies

Usage: pcompact replay [OPTIONS] <IMAGE> <SCHEDULE>

Arguments:
  <IMAGE>     A heap image; - is standard input
  <SCHEDULE>  A schedule for the image; - is standard input

Options:
      --region-log <k>  Read IMAGE with regions of 2^k words, k from 3 to 20
      --allowance <m>   Read IMAGE as if its prefix might keep m dead words
      --progress        Show progress (or --progress=WHEN: auto, always, never)
  -v, --verbose         Print details of errors (default; --verbose=never: none)
  -h, --help            Print help

Example:
  pcompact replay heap.pcheap schedule
"""

ORDER_HELP = """\
Print how many workers a collection can keep busy

Usage: pcompact order [OPTIONS] <IMAGE>

Arguments:
  <IMAGE>  A heap image; - is standard input

Options:
      --region-log <k>  Read IMAGE with regions of 2^k words, k from 3 to 20
      --allowance <m>   Read IMAGE as if its prefix might keep m dead words
      --json            Print a JSON object
      --progress        Show progress (or --progress=WHEN: auto, always, never)
  -v, --verbose         Print details of errors (default; --verbose=never: none)
  -h, --help            Print help

Example:
  pcompact order heap.pcheap
"""

TEXT_HELP = """\
Print a heap image as text

Usage: pcompact text [OPTIONS] <IMAGE>

Arguments:
  <IMAGE>  A heap image; - is standard input

Options:
      --progress  Show progress (or --progress=WHEN: auto, always, never)
  -v, --verbose   Print details of errors (default; --verbose=never: none)
  -h, --help      Print help

Example:
  pcompact text heap.pcheap
"""

ASSEMBLE_HELP = """\
Convert a heap text to a heap image

Usage: pcompact assemble [OPTIONS] <TEXT> <IMAGE>

Arguments:
  <TEXT>   A heap text; - is standard input
  <IMAGE>  Where to write the image; - is standard output

Options:
      --atomic    Replace files only once the command has succeeded
      --progress  Show progress (or --progress=WHEN: auto, always, never)
  -v, --verbose   Print details of errors (default; --verbose=never: none)
  -h, --help      Print help

Example:
  pcompact assemble heap.txt heap.pcheap
"""

MAP_HELP = """\
Draw a heap image, also as its collection leaves it

Usage: pcompact map [OPTIONS] <IMAGE>

Arguments:
  <IMAGE>  A heap image; - is standard input

Options:
      --after           Also draw the heap after its collection
      --moves           Also draw where the live words go
      --width <n>       Cells of a row, 1 to 1000 (default: what fits, or 64)
      --height <n>      Rows, 1 to 100 (default: what fits, or 1; 8 in SVG)
      --svg <FILE>      Draw into this file as SVG, and print only the figures
      --region-log <k>  Read IMAGE with regions of 2^k words, k from 3 to 20
      --allowance <m>   Read IMAGE as if its prefix might keep m dead words
      --letters         Draw with letters even if the locale has blocks
      --color           Use colours (or --color=WHEN: auto, always, never)
      --no-color        Never use colours
      --atomic          Replace files only once the command has succeeded
      --progress        Show progress (or --progress=WHEN: auto, always, never)
  -v, --verbose         Print details of errors (default; --verbose=never: none)
  -h, --help            Print help

Example:
  pcompact map heap.pcheap --after
"""

TIMELINE_HELP = """\
Draw which worker has which region along the lines of a schedule

Usage: pcompact timeline [OPTIONS] <IMAGE> <SCHEDULE>

Arguments:
  <IMAGE>     A heap image; - is standard input
  <SCHEDULE>  A schedule for the image; - is standard input

Options:
      --width <n>       Cells of a lane, 1 to 1000 (default: what fits, or 64)
      --svg <FILE>      Draw into this file as SVG, and print only the figures
      --html <FILE>     Write a page of the schedule, and print only the figures
      --region-log <k>  Read IMAGE with regions of 2^k words, k from 3 to 20
      --allowance <m>   Read IMAGE as if its prefix might keep m dead words
      --letters         Draw with letters even if the locale has blocks
      --color           Use colours (or --color=WHEN: auto, always, never)
      --no-color        Never use colours
      --atomic          Replace files only once the command has succeeded
      --progress        Show progress (or --progress=WHEN: auto, always, never)
  -v, --verbose         Print details of errors (default; --verbose=never: none)
  -h, --help            Print help

Example:
  pcompact record heap.pcheap out.pcheap schedule --workers 4
  pcompact timeline heap.pcheap schedule --html timeline.html
"""

VERIFY_HELP = """\
Compare a heap image with the compaction of another

Usage: pcompact verify [OPTIONS] <BEFORE> <AFTER>

Arguments:
  <BEFORE>  The image before its collection; - is standard input
  <AFTER>   The image to compare with its compaction; - is standard input

Options:
      --explain         Say which words differ and where references lead
      --ignore-free     Don't compare the words above the top
      --region-log <k>  Read BEFORE with regions of 2^k words, k from 3 to 20
      --allowance <m>   Read BEFORE as if its prefix might keep m dead words
      --json            Print a JSON object
      --stats           Print timings and peak memory to stderr
      --progress        Show progress (or --progress=WHEN: auto, always, never)
  -v, --verbose         Print details of errors (default; --verbose=never: none)
  -h, --help            Print help

Example:
  pcompact verify heap.pcheap out.pcheap
"""

UPGRADE_HELP = """\
Convert a heap image to version 2 or 3, with roots

Usage: pcompact upgrade [OPTIONS] <IMAGE> <OUT>

Arguments:
  <IMAGE>  A heap image; - is standard input
  <OUT>    Where to write the upgraded image; - is standard output

Options:
      --to <v>    Version of the upgraded image, from 2 to 3 (default 2)
      --progress  Show progress (or --progress=WHEN: auto, always, never)
      --atomic    Replace files only once the command has succeeded
  -v, --verbose   Print details of errors (default; --verbose=never: none)
  -h, --help      Print help

Example:
  pcompact upgrade heap.pcheap rooted.pcheap
"""

REDUCE_HELP = """\
Make a heap image smaller by one step; pcompact shrink takes many

Usage: pcompact reduce [OPTIONS] <IMAGE> <OUT>

Arguments:
  <IMAGE>  A heap image; - is standard input
  <OUT>    Where to write the smaller image; - is standard output

Options:
      --step <n>  The first step to try (default 0)
      --progress  Show progress (or --progress=WHEN: auto, always, never)
      --atomic    Replace files only once the command has succeeded
  -v, --verbose   Print details of errors (default; --verbose=never: none)
  -h, --help      Print help

Example:
  pcompact reduce heap.pcheap smaller.pcheap --step 5
"""

IMPORT_HELP = """\
Convert the heap dump of a Java virtual machine to a heap image

Usage: pcompact import [OPTIONS] <DUMP> <IMAGE>

Arguments:
  <DUMP>   A heap dump; - is standard input
  <IMAGE>  Where to write the image; - is standard output

Options:
      --region-log <k>  Regions have 2^k words, k from 3 to 20 (default 9)
      --allowance <m>   Dead words that the dense prefix may keep (default 0)
      --version <v>     Image version, from 2 to 3 (default 2, larger heaps 3)
      --live-only       Keep only objects that are reachable from the roots
      --weak            Don't follow weak, phantom and final references
      --weak-soft       Don't follow soft references either
      --pack            Leave out gaps that are the machine's padding
      --classes <FILE>  List objects: address, id, class, bytes, live or dead
      --histogram <n>   Print the n classes with the most bytes, live and dead
      --json            Print a JSON object
      --stats           Print timings and peak memory to stderr
      --progress        Show progress (or --progress=WHEN: auto, always, never)
      --atomic          Replace files only once the command has succeeded
  -v, --verbose         Print details of errors (default; --verbose=never: none)
  -h, --help            Print help

Example:
  jcmd PID GC.heap_dump -all /tmp/heap.hprof
  pcompact import /tmp/heap.hprof heap.pcheap
  gunzip -c heap.hprof.gz | pcompact import - heap.pcheap
"""

COMPARE_HELP = """\
Compare the heap dumps before and after a collection

Usage: pcompact compare [OPTIONS] <BEFORE> <AFTER>

Arguments:
  <BEFORE>  A heap dump before the collection; - is standard input
  <AFTER>   A heap dump of the same machine after it; - is standard input

Options:
      --explain   List holes, changed data and conflicts, too
      --json      Print a JSON object
      --progress  Show progress (or --progress=WHEN: auto, always, never)
  -v, --verbose   Print details of errors (default; --verbose=never: none)
  -h, --help      Print help

Example:
  jcmd PID GC.heap_dump -all /tmp/before.hprof
  jcmd PID GC.run
  jcmd PID GC.heap_dump -all /tmp/after.hprof
  pcompact compare /tmp/before.hprof /tmp/after.hprof
"""

GENERATE_HELP = """\
Generate a heap image from a seed, for benchmarks and experiments

Usage: pcompact generate [OPTIONS] --words <n> --live <share> --region-log <k>
       --seed <s> <IMAGE>

Arguments:
  <IMAGE>  Where to write the image; - is standard output

Options:
      --words <n>       Words of the heap, a multiple of 2^k, at most 2^36
      --live <share>    Percentage of words in live objects, 0 to 100
      --region-log <k>  Regions have 2^k words, k from 3 to 20
      --seed <s>        A number of 64 bits; the same seed gives the same bytes
      --refs <share>    Percentage of references after headers (default 25)
      --version <v>     Image version, from 1 to 3 (default 2, larger heaps 3)
      --allowance <m>   Dead words that the dense prefix may keep (default 0)
      --progress        Show progress (or --progress=WHEN: auto, always, never)
      --atomic          Replace files only once the command has succeeded
  -v, --verbose         Print details of errors (default; --verbose=never: none)
  -h, --help            Print help

Example:
  pcompact generate heap.pcheap --words 65536 --live 50 --region-log 9 --seed 1
"""

NO_COMMAND = """\
error: 'pcompact' requires a subcommand but one was not provided
  [subcommands: collect, verify, summary, order, map, text, assemble, record, replay, timeline, upgrade, import, compare, generate, reduce, board, help]

Usage: pcompact <COMMAND>

For more information, try '--help'.
"""

UNKNOWN_COMMAND = """\
error: unrecognized subcommand 'sweep'

Usage: pcompact <COMMAND>

For more information, try '--help'.
"""

UNKNOWN_OPTION = """\
error: unexpected argument '--quiet' found

Usage: pcompact <COMMAND>

For more information, try '--help'.
"""

NO_IMAGE = """\
error: the following required arguments were not provided:
  <IMAGE>

Usage: pcompact summary <IMAGE>

For more information, try '--help'.
"""

EXTRA_WORD = """\
error: unexpected argument 'twice' found

Usage: pcompact board [OPTIONS]

For more information, try '--help'.
"""

REGION_LOG_OUTSIDE = """\
error: invalid value '2' for '--region-log <k>': 2 is not in 3..=20

For more information, try '--help'.
"""

REGION_LOG_ABOVE = """\
error: invalid value '21' for '--region-log <k>': 21 is not in 3..=20

For more information, try '--help'.
"""

NO_ALLOWANCE = """\
error: invalid value '18446744073709551616' for '--allowance <m>': number too large to fit in target type

For more information, try '--help'.
"""

NO_VALUE = """\
error: a value is required for '--workers <n>' but none was supplied

For more information, try '--help'.
"""

NO_NUMBER = """\
error: invalid value 'two' for '--workers <n>': a whole number is wanted

For more information, try '--help'.
"""

TOO_MANY = """\
error: invalid value '65' for '--workers <n>': 65 is not in 1..=64

For more information, try '--help'.
"""

BELOW_ZERO = """\
error: unexpected argument '-1' found

Usage: pcompact collect [OPTIONS] <IMAGE> <OUT>

For more information, try '--help'.
"""

OPTION_AS_VALUE = """\
error: unexpected argument '--live-only' found

Usage: pcompact collect <IMAGE> <OUT>

For more information, try '--help'.
"""

NO_UNIT = """\
error: invalid value '32MiB' for '--words <n>': a whole number is wanted, of words of 8 bytes

For more information, try '--help'.
"""

NO_POINT = """\
error: invalid value '50.5' for '--live <share>': a whole number is wanted, of per cent

For more information, try '--help'.
"""

OTHER_COLOR = """\
error: unexpected value 'blue' for '--color' found; auto, always or never is wanted

Usage: pcompact map --color <IMAGE>

For more information, try '--help'.
"""

OTHER_PROGRESS = """\
error: unexpected value 'blue' for '--progress' found; auto, always or never is wanted

Usage: pcompact verify --progress <BEFORE> <AFTER>

For more information, try '--help'.
"""

PROGRESS_TWICE = """\
error: the argument '--progress' cannot be used multiple times

Usage: pcompact verify [OPTIONS] <BEFORE> <AFTER>

For more information, try '--help'.
"""

NO_PROGRESS = """\
error: unexpected argument '--progress' found

Usage: pcompact board [OPTIONS]

For more information, try '--help'.
"""

COLOR_TWICE = """\
error: the argument '--color' cannot be used multiple times

Usage: pcompact map [OPTIONS] <IMAGE>

For more information, try '--help'.
"""

NO_COLOR = """\
error: unexpected argument '--color' found

Usage: pcompact summary <IMAGE>

For more information, try '--help'.
"""

VERSION = """\
error: unrecognized subcommand 'version'

  tip: a similar argument exists: '--version'

Usage: pcompact <COMMAND>

For more information, try '--help'.
"""

OTHER_COMMAND = """\
error: unrecognized subcommand 'generat'

  tip: a similar subcommand exists: 'generate'

Usage: pcompact <COMMAND>

For more information, try '--help'.
"""

HELPS = [
    ("--help", HELP),
    ("-h", HELP),
    ("help", HELP),
    ("board --help", BOARD_HELP),
    ("summary -h", SUMMARY_HELP),
    ("collect --help", COLLECT_HELP),
    ("record -h", RECORD_HELP),
    ("help replay", REPLAY_HELP),
    ("verify --help", VERIFY_HELP),
    ("upgrade --help", UPGRADE_HELP),
    ("reduce --help", REDUCE_HELP),
    ("import --help", IMPORT_HELP),
    ("compare --help", COMPARE_HELP),
    ("generate --help", GENERATE_HELP),
    ("order --help", ORDER_HELP),
    ("text --help", TEXT_HELP),
    ("assemble --help", ASSEMBLE_HELP),
    ("map --help", MAP_HELP),
    ("timeline --help", TIMELINE_HELP),
]

REFUSED = [
    ("", NO_COMMAND),
    ("sweep", UNKNOWN_COMMAND),
    ("--quiet", UNKNOWN_OPTION),
    ("summary", NO_IMAGE),
    ("board twice", EXTRA_WORD),
    ("import in out --region-log 2", REGION_LOG_OUTSIDE),
    ("import in out --region-log 21", REGION_LOG_ABOVE),
    ("import in out --allowance 18446744073709551616", NO_ALLOWANCE),
    ("collect in out --workers", NO_VALUE),
    ("collect in out --workers two", NO_NUMBER),
    ("collect in out --workers 65", TOO_MANY),
    ("collect in out --workers -1", BELOW_ZERO),
    ("collect in out --workers --allowance", NO_VALUE),
    ("collect in out --workers --live-only", OPTION_AS_VALUE),
    ("collect in out --workers 1 --region-log 2", REGION_LOG_OUTSIDE),
    ("verify in out --region-log 21", REGION_LOG_ABOVE),
    ("summary in --allowance 18446744073709551616", NO_ALLOWANCE),
    ("generate out --words 32MiB --live 50 --region-log 3 --seed 1", NO_UNIT),
    ("generate out --words 64 --live 50.5 --region-log 3 --seed 1", NO_POINT),
    ("map heap --color=blue", OTHER_COLOR),
    ("map heap --verbose=always --color=blue", OTHER_COLOR.replace("--color <", "--verbose --color <")),
    ("map heap --color --color", COLOR_TWICE),
    ("map heap --color=always --color --color", COLOR_TWICE),
    ("summary heap --color=auto", NO_COLOR),
    ("verify in out --progress=blue", OTHER_PROGRESS),
    ("verify in out --progress --progress=never --progress", PROGRESS_TWICE),
    ("board --progress=auto", NO_PROGRESS),
    ("version", VERSION),
    ("generat out", OTHER_COMMAND),
]


def try_helps(tried: Tried) -> None:
    """Each help is as it stands here, and fits into 80 columns."""
    for words, text in HELPS:
        tried.run(words, Answer(0, text))
        if any(len(line) > 80 for line in text.splitlines()):
            tried.is_wrong(f"pcompact {words}: a line is too long")


def try_refused_words(tried: Tried) -> None:
    for words, text in REFUSED:
        tried.run(words, usage(text))


GROUPS = (try_helps, try_refused_words)

if __name__ == "__main__":
    sys.exit(try_groups(GROUPS))
