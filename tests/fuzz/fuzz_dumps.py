"""One heap dump of fuzz.py, drawn and often changed, through `import`, and what the model says of it."""
import random
import re

from tests.models import dump as dump_model
from tests.support import dump_writer
from tests.support.program import Answer, Tried


def drawn(chance: random.Random) -> bytes:
    """A dump with each kind of record or a random one, mostly with bytes changed, left out or doubled."""
    text = chance.choice([dump_writer.small(chance.choice((4, 8))).text(), dump_writer.drawn(chance.randrange(1 << 30))])
    data = bytearray(text)
    for _ in range(chance.choice((0, 1, 1, 2, 3))):
        at = chance.randrange(len(data))
        change = chance.randrange(6)
        if change < 4:
            data[at] = chance.choice((0, 1, 2, 8, 255, data[at] ^ 1 << chance.randrange(8), chance.randrange(256)))
        elif change == 4:
            del data[at:at + chance.choice((1, 2, 4, 8))]
        else:
            data[at:at] = data[at:at + chance.choice((1, 4, 9, 40))]
    return bytes(data[:chance.randrange(len(data))] if chance.randrange(12) == 0 else data)


def answer_of(data: bytes, log: int, allowance: int, live_only: bool, version: int | None, packs: bool) -> tuple[str, Answer]:
    """Of which kind such a dump is, and what is owed."""
    try:
        wanted = dump_model.make(data, log, allowance, live_only, version, packs=packs)
    except dump_model.Malformed as malformed:
        offset, kind = malformed.args
        # Where a record is cut, what stands before the cut may be wrong too, and is reported first.
        place = r"\d+" if kind in ("cut", "name") else str(offset)
        return "malformed", Answer(1, err=re.compile(rf"pcompact: .*byte {place}: .+\n"), made={"imported": None})
    if wanted.image is None:
        return "refused", Answer(1, err=re.compile(rf"pcompact: .*{re.escape(wanted.line)}.*\n"), made={"imported": None})
    return "imported", Answer(0, f"{wanted.line}\n", made={"imported": wanted.image})


def try_dump(tried: Tried, chance: random.Random) -> str:
    """Runs `import` of one dump, and tells of which kind it was."""
    data, log, allowance, live_only = drawn(chance), chance.choice((3, 4, 9, 16)), chance.choice((0, 5)), chance.randrange(2) == 1
    version, packs = chance.choice((None, None, 2, 3)), chance.randrange(3) == 0
    tried.write("dump", data)
    kind, answer = answer_of(data, log, allowance, live_only, version, packs)
    flags = " --live-only" * live_only + " --pack" * packs + f" --version {version}" * (version is not None) + " --atomic"
    tried.run(f"import dump imported --region-log {log} --allowance {allowance}{flags}", answer)
    return f"dump {kind}"
