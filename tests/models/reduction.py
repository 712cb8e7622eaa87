"""A slow plain model of the steps by which a heap is made smaller, made from docs/COMMANDS.md alone."""
import dataclasses
import itertools
from collections.abc import Iterator

from tests.models.image import Image, Fault, allows, check, header, references_of, size_of

PARTS = ("roots", "objects", "regions", "dead words", "fields", "references", "life", "region log", "allowance")


def sizes(image: Image) -> tuple[int, ...]:
    """The counts, none of which may grow."""
    live = image.live()
    held = sum(word != 0 for a in live for word in image.references(a))
    end = image.end(live[-1]) if live else 0
    return len(image.words), image.region_log, image.allowance, len(image.roots()), len(live), end, held


def is_smaller(small: Image, large: Image) -> bool:
    pairs = list(zip(sizes(small), sizes(large)))
    return all(a <= b for a, b in pairs) and any(a < b for a, b in pairs)


def units(image: Image, part: str) -> list[int]:
    """What a step can leave out of a part: addresses, numbers or indices."""
    live = image.live()
    inside = {word for a in live for word in range(a, image.end(a))}
    end = image.end(live[-1]) if live else 0
    references = [word for a in live for word in range(a + 1, a + 1 + references_of(image.words[a]))]
    return list({
        "roots": range(len(image.roots())),
        "objects": live,
        "regions": range(len(image.words) >> image.region_log),
        "dead words": [word for word in range(end) if word not in inside],
        "fields": sorted(inside - set(live)),
        "references": [word for word in references if image.words[word]],
        "life": live,
        "region log": range(image.region_log - 3),
        "allowance": range(image.allowance.bit_length()),
    }[part])


def steps(image: Image) -> Iterator[tuple[int, str, list[int]]]:
    """Each step with its number, its part and what it leaves out, where that is something new."""
    most = max(len(units(image, part)) for part in PARTS[:5])
    number = 0
    for level in itertools.takewhile(lambda level: not level or most > 1 << level - 1, itertools.count()):
        for part in PARTS:
            those = units(image, part)
            for piece in range(1 << level):
                size = -(-len(those) >> level)
                chosen = those[piece * size:(piece + 1) * size]
                if chosen and (level == 0 or len(those) > 1 << level - 1):
                    yield number, part, chosen
                number += 1


def without(image: Image, part: str, chosen: list[int]) -> Image:
    """What is left of a heap, valid or not."""
    gone = set(chosen)
    live, log = image.live(), image.region_log
    words, new, end = [], {}, 0

    def is_cut(word: int) -> bool:
        return part == "regions" and word >> log in gone or part == "dead words" and word in gone

    for a in [*live, None]:
        words += [image.words[word] for word in range(end, len(image.words) if a is None else a) if not is_cut(word)]
        if a is None:
            break
        end = image.end(a)
        if part == "objects" and a in gone:
            continue
        if part == "life" and a in gone or any(part == "regions" and word >> log in gone for word in range(a, end)):
            words += [image.words[word] for word in range(a, end) if not is_cut(word)]
            continue
        new[a] = len(words)
        kept = [word for word in range(a + 1, end) if part != "fields" or word not in gone]
        references = [word for word in kept if word <= a + references_of(image.words[a])]
        words.append(header(1 + len(kept), len(references)))
        words += [0 if part == "references" and word in gone else image.words[word] for word in kept]

    def moved(reference: int) -> int:
        return 1 + new[reference - 1] if reference - 1 in new else 0

    for place in new.values():
        for field in range(place + 1, place + 1 + references_of(words[place])):
            words[field] = moved(words[field])
    tail = list(new.values())
    if image.version != 1:
        tail = [moved(root) for i, root in enumerate(image.tail) if part != "roots" or i not in gone]
    log -= len(chosen) if part == "region log" else 0
    allowance = image.allowance >> len(chosen) if part == "allowance" else image.allowance
    words += [0] * (-len(words) % (1 << log) if words else 1 << log)
    return dataclasses.replace(image, region_log=log, allowance=allowance, words=words, tail=tail)


def is_valid(image: Image) -> bool:
    try:
        check(image)
    except Fault:
        return False
    return len(image.tail) <= len(image.words) and allows(image.version, image.region_log, len(image.words))


def next_smaller(image: Image, start: int) -> tuple[int, Image] | None:
    """The first step from a number on that makes a smaller heap, and that heap."""
    for number, part, chosen in steps(image):
        if number >= start:
            small = without(image, part, chosen)
            if is_valid(small) and is_smaller(small, image):
                return number, small
    return None


def reduced(image: Image, start: int) -> tuple[str, Image]:
    """What `reduce` prints of an image, and the image that it writes."""
    found = next_smaller(image, start)
    small = found[1] if found else image
    words, log, allowance, roots, live, _, references = sizes(small)
    counts = f"words {words} live {live} roots {roots} references {references} region-log {log} allowance {allowance}\n"
    return (f"step {found[0]} " if found else "least ") + counts, small
