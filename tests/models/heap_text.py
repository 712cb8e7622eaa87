"""A slow plain model of the text of a heap, made from docs/FORMATS.md, "Heap text", alone.

It shares nothing with the crate: live words are found by a set, and a text is that of an image where the image that is
read off it, with no look at how it is spelled, has that very text.
"""
import itertools
import struct

from tests.models.image import MAX_WORDS, Fault, Image, decode, encode, header


def reference_text(word: int) -> str:
    return f"@{word - 1}" if word else "null"


def object_line(image: Image, a: int) -> str:
    references = image.references(a)
    others = image.words[a + 1 + len(references):image.end(a)]
    fields = [f"@{a} object {image.end(a) - a}"]
    fields += ["refs", *map(reference_text, references)] if references else []
    fields += ["data", *map(str, others)] if others else []
    return " ".join(fields)


def dead_line(image: Image, run: list[int]) -> str:
    words = [image.words[a] for a in run]
    told = f"of {words[0]}" if len(set(words)) == 1 else f"words {' '.join(map(str, words))}"
    return f"@{run[0]} dead {len(words)} {told}"


def text_of(image: Image) -> str:
    """The text of a valid image."""
    lines = [f"heap version {image.version}", f"region-log {image.region_log}", f"words {len(image.words)}",
             f"allowance {image.allowance}"]
    lines += [" ".join(["roots", *map(reference_text, image.tail)])] if image.version != 1 else []
    live = image.live()
    owned = {word for a in live for word in range(a, image.end(a))}
    runs = itertools.groupby(range(len(image.words)), key=lambda word: word in owned)
    dead = {run[0]: run for is_live, group in runs if not is_live for run in [list(group)]}
    at = {a: object_line(image, a) for a in live} | {a: dead_line(image, run) for a, run in dead.items()}
    return "".join(f"{line}\n" for line in [*lines, *(at[a] for a in sorted(at))])


def words_of(line: str) -> tuple[list[int], bool]:
    """The words that a line of the heap tells, and whether it is that of an object."""
    _, kind, count, *fields = line.split(" ")
    if int(count) > MAX_WORDS:
        raise ValueError(count)
    numbers = [0 if field == "null" else 1 + int(field[1:]) if field.startswith("@") else int(field)
               for field in fields if field not in ("refs", "data", "of", "words")]
    if kind == "object":
        references = sum(field == "null" or field.startswith("@") for field in fields)
        return [header(int(count), references), *numbers], True
    return numbers * int(count) if fields[0] == "of" else numbers, False


def assembled(text: str) -> Image | None:
    """The valid image of which this is the text, if there is one."""
    try:
        version, log, length, allowance, *lines = text.splitlines()
        if version[-1] not in "123":
            return None
        tail = [0 if word == "null" else 1 + int(word[1:]) for word in lines.pop(0).split(" ")[1:]] if version[-1] != "1" else []
        words, objects = [], []
        for line in lines:
            told, is_object = words_of(line)
            objects += [len(words)] if is_object else []
            words += told
        image = Image(int(version[-1]), int(log.split(" ")[1]), int(allowance.split(" ")[1]), words,
                      tail if version[-1] != "1" else objects)
        image = decode(encode(image))
        return image if text_of(image) == text else None
    except (Fault, ValueError, IndexError, struct.error):
        return None
