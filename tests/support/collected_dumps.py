"""Writes pairs of heap dumps, before and after a collection that slides, and plants bugs in the second."""
import dataclasses
import random
import struct

from tests.support.dump_writer import Writer

LOW, SPACE = 0x7000_0000, 0x10_0000
HIDING = b"java/lang/ref/Reference"
NAMES = [b"java/lang/Object", b"Node", b"Leaf", b"[Ljava/lang/Object;", HIDING, b"Weak"]
# The class of each kind of object, and the types of its fields.
NODE, LEAF, ARRAY, WEAK, BYTES, FILLER = range(6)
BUGS = ("swapped", "moved up", "hole", "changed", "lost")


@dataclasses.dataclass
class Thing:
    """An object: its kind, the indexes of what it refers to, its data, and its size in the machine."""
    kind: int
    references: list[int | None]
    data: list[int]
    bytes: int


@dataclasses.dataclass
class Heap:
    """Things, their addresses before and after, and which are there."""
    things: list[Thing]
    before: dict[int, int]
    after: dict[int, int]
    roots: list[int]
    # What is in the place of dead things of the prefix: addresses and numbers of words.
    fillers: dict[int, int]


def drawn(seed: int, count: int = 300) -> Heap:
    """A heap of two spaces, of which the first keeps a prefix."""
    draw = random.Random(seed)
    things = []
    for _ in range(count):
        kind = draw.choice((NODE, NODE, LEAF, ARRAY, WEAK, BYTES))
        references = {NODE: 2, ARRAY: draw.randrange(9), WEAK: 5}.get(kind, 0)
        data = {NODE: 1, LEAF: 2, BYTES: draw.randrange(1, 40)}.get(kind, 0)
        things.append(Thing(kind, [draw.choice((None, *[draw.randrange(count)] * 5)) for _ in range(references)],
                            [draw.getrandbits(8) for _ in range(data)], 16 + 8 * (references + data)))
    roots = draw.sample(range(count), 40)
    live = reached(things, roots)
    half = count // 2
    before = places(things, range(half), LOW) | places(things, range(half, count), LOW + SPACE)
    kept = [at for at in range(count // 6)]
    stays = [at for at in kept if at in live]
    fillers = {before[at]: things[at].bytes // 8 for at in kept if at not in live}
    end = before[len(kept)]
    after = {at: before[at] for at in stays} | places(things, [at for at in sorted(live) if at >= len(kept)], end)
    return Heap(things, before, after, roots, fillers)


def reached(things: list[Thing], roots: list[int]) -> set[int]:
    """What roots reach, but not by the first four references of a weak thing."""
    found, queue = set(roots), list(roots)
    while queue:
        thing = things[queue.pop()]
        for reference in thing.references[4 if thing.kind == WEAK else 0:]:
            if reference is not None and reference not in found:
                found.add(reference)
                queue.append(reference)
    return found


def places(things: list[Thing], order, start: int) -> dict[int, int]:
    """Addresses without a gap, in this order."""
    found = {}
    for at in order:
        found[at] = start
        start += things[at].bytes
    return found


def dump(heap: Heap, addresses: dict[int, int], fillers: dict[int, int] | None = None, changed: int | None = None,
         lost: int | None = None) -> bytes:
    """The dump of the things at these addresses. One may have other data, one may be lost."""
    to = Writer()
    classes = {name: 0x100 + 0x40 * at for at, name in enumerate(NAMES)}
    for number, (name, class_) in enumerate(classes.items(), 1):
        to.record(0x01, to.id(number) + name)
        to.record(0x02, struct.pack(">I", number) + to.id(class_) + bytes(4) + to.id(number))
    object_ = classes[NAMES[0]]
    records = [to.class_(object_), to.class_(classes[b"Node"], object_, [2, 10, 2]), to.class_(classes[b"Leaf"], object_, [11, 8]),
               to.class_(classes[b"[Ljava/lang/Object;"], object_), to.class_(classes[HIDING], object_, [2, 2, 2, 2]),
               to.class_(classes[b"Weak"], classes[HIDING], [2])]
    for at in sorted(addresses, key=addresses.get):
        if at == lost:
            continue
        thing = heap.things[at]
        ids = [addresses.get(reference, 0) if reference is not None and reference != lost else 0 for reference in thing.references]
        data = [byte ^ (at == changed) for byte in thing.data]
        records.append(record(to, thing.kind, addresses[at], ids, data, classes))
    records += [to.primitives(address, 10, [0] * (2 * (words - 2))) for address, words in (fillers or {}).items()]
    records += [root(to, number, addresses[at]) for number, at in enumerate(heap.roots) if at != lost]
    for start in range(0, len(records), 50):
        to.record(0x1C, b"".join(records[start:start + 50]))
    return to.record(0x2C, b"").text()


def record(to: Writer, kind: int, id_: int, ids: list[int], data: list[int], classes: dict[bytes, int]) -> bytes:
    if kind == NODE:
        return to.instance(id_, classes[b"Node"], [(2, ids[0]), (10, data[0]), (2, ids[1])])
    if kind == LEAF:
        return to.instance(id_, classes[b"Leaf"], [(11, data[0]), (8, data[1])])
    if kind == WEAK:
        return to.instance(id_, classes[b"Weak"], [(2, ids[4]), *((2, it) for it in ids[:4])])
    if kind == BYTES:
        return to.primitives(id_, 8, data)
    body = b"".join(map(to.id, ids))
    return b"\x22" + to.id(id_) + struct.pack(">II", 0, len(ids)) + to.id(classes[b"[Ljava/lang/Object;"]) + body


def root(to: Writer, number: int, id_: int) -> bytes:
    """A root in a frame of a thread."""
    return b"\x03" + to.id(id_) + struct.pack(">II", 1 + number % 3, number // 3)


def with_bug(heap: Heap, bug: str, draw: random.Random) -> tuple[bytes, int]:
    """The dump after a collection with a bug, and the address before of the object to be named."""
    after = dict(heap.after)
    # Things of the first space that moved, but for its first and last.
    moved = [at for at in sorted(after) if after[at] != heap.before[at] and at < len(heap.things) // 2][1:-1]
    place = draw.randrange(len(moved) - 1)
    at = moved[place]
    if bug == "swapped":
        other = moved[place + 1]
        after[at], after[other] = after[other] + heap.things[other].bytes - heap.things[at].bytes, after[at]
    elif bug == "moved up":
        after[at] = LOW + 2 * SPACE
    elif bug == "hole":
        after = {it: address + 16 * (it > at) if address != heap.before[it] else address for it, address in after.items()}
    elif bug == "changed":
        at = draw.choice([it for it in after if heap.things[it].data])
        return dump(heap, after, heap.fillers, changed=at), heap.before[at]
    else:
        held = {reference for it in after for reference in heap.things[it].references[4 if heap.things[it].kind == WEAK else 0:]}
        at = draw.choice([it for it in moved if it in held and it not in heap.roots])
        return dump(heap, after, heap.fillers, lost=at), heap.before[at]
    return dump(heap, after, heap.fillers), heap.before[at]
