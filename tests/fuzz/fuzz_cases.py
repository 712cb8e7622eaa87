"""One case of fuzz.py: an image and schedules through each command, and what the model says of them."""
import dataclasses
import random
import re

from tests.fuzz.generators import ImageMaker, LimitMaker, ScheduleMaker, as_version_1, chance_of
from tests.fuzz.mutations import ImageSpoiler, ScheduleSpoiler, TextSpoiler
from tests.models.heap_text import assembled, text_of
from tests.models.image import Collection, Fault, Image, allows, decode, encode, upgraded, verdict
from tests.models.schedule import ANY, MAX_WORKERS, Schedule, is_recorded, read, recorded_by_one, replayed
from tests.models.timeline import Timeline
from tests.support.program import Answer, Tried, differs, fault, outside

# Words of an image for which the model takes long.
MANY_WORDS = 1 << 14
# Lines of a schedule for which the model takes long.
MANY_LINES = 400
# What `assemble` says of a text that is none of a heap.
NO_TEXT = Answer(1, err=re.compile(r"pcompact: TEXT line [1-9][0-9]*: expected .+\n"), made={"made": None})


def atomic_or_not(chance: random.Random) -> str:
    return chance.choice(["", "", " --atomic"])


def try_refused(tried: Tried, said: str, chance: random.Random) -> None:
    """An image that is none, under `summary` and other commands."""
    tried.run("summary image", fault(said))
    workers, flag = chance.choice(range(1, 9)), atomic_or_not(chance)
    # The image is read before the schedule.
    tried.write("schedule", chance.choice(["", "schedule 1 1\n", "schedule 1 1\n0 claim 0 ?"]))
    commands = [("order image", {}), ("text image", {}), ("map image --after", {}), (f"map image --svg drawn{flag}", {"drawn": None}), ("replay image schedule", {}), ("timeline image schedule", {}), (f"timeline image schedule --html drawn{flag}", {"drawn": None}), ("verify image base", {}), ("verify base image", {}),
                (f"collect image out --workers {workers}{flag}", {"out": None}),
                (f"record image out recorded --workers {workers}{flag}", {"out": None, "recorded": None}),
                (f"upgrade image out{flag}", {"out": None})]
    for words, made in chance.sample(commands, 2):
        tried.run(words, fault(said, made))


def try_collected(tried: Tried, collection: Collection, chance: random.Random) -> None:
    """A valid image under all commands but `replay` of schedules of others."""
    image = collection.image
    collected = Answer(0, collection.figures(), made={"out": encode(collection.compaction())})
    tried.run("summary image", Answer(0, collection.report()))
    tried.run("order image", Answer(0, collection.order()))
    width = chance.choice([1, 2, 7, 64, 1000, chance.randint(1, 1000)])
    tried.run(f"map image --letters --width {width}", Answer(0, collection.map(width, False)))
    tried.run(f"map image --after --letters --width {width}", Answer(0, collection.map(width, True)))
    for workers in (1, chance.choice([2, 3, 4, 8, MAX_WORKERS, chance.randint(2, MAX_WORKERS)])):
        tried.run(f"collect image out --workers {workers}{atomic_or_not(chance)}", collected)
    tried.run("verify image out", Answer(0, "same\n"))
    try_recorded(tried, collection, collected, chance.choice([*range(2, 9), MAX_WORKERS]))
    alone = recorded_by_one(collection).text()
    tried.run(f"record image out schedule --workers 1{atomic_or_not(chance)}",
              dataclasses.replace(collected, made=collected.made | {"schedule": alone.encode()}))
    if chance.randrange(8) == 0:
        workers, flag = chance.choice([0, MAX_WORKERS + 1, 2 ** 32 - 1]), atomic_or_not(chance)
        tried.run(f"collect image out --workers {workers}{flag}", outside(workers, {"out": None}))
        tried.run(f"record image out schedule --workers {workers}{flag}", outside(workers, {"out": None, "schedule": None}))
    if image.version != 1 and allows(1, image.region_log, len(image.words)):
        try_twin(tried, as_version_1(image), alone)
    try_upgraded(tried, image)


def try_recorded(tried: Tried, collection: Collection, collected: Answer, workers: int) -> None:
    """What several workers do is any order of whole fills that the word machine allows."""
    if not tried.run(f"record image out schedule --workers {workers}", collected):
        return
    text = tried.read("schedule")
    tried.run("replay image schedule", Answer(0, text.decode() + "finished\n"))
    try:
        schedule = read(text)
        is_right = (schedule.workers == workers and is_recorded(collection, schedule)
                    and replayed(collection, schedule) == text.decode() + "finished\n")
    except Fault:
        is_right = False
    if not is_right:
        tried.is_wrong(f"record by {workers} workers made another schedule: {text!r}")


def try_twin(tried: Tried, twin: Image, recorded: str) -> None:
    """The same heap in version 1 has the same summary and words, and the same schedule with one worker."""
    collection = Collection(twin)
    tried.write("twin", encode(twin))
    tried.run("summary twin", Answer(0, collection.report()))
    tried.run("order twin", Answer(0, collection.order()))
    made = {"out": encode(collection.compaction()), "schedule": recorded.encode()}
    tried.run("record twin out schedule --workers 1", Answer(0, collection.figures(), made=made))
    tried.run("verify image out", differs("shape"))


def try_upgraded(tried: Tried, image: Image) -> None:
    """Versions 2 and 3 of the heap, which collect to the same words and figures."""
    try_version_3(tried, image)
    if image.version == 3:
        return
    new = upgraded(image)
    collection = Collection(new)
    tried.run("upgrade image new", Answer(0, f"roots {len(new.tail)}\n", made={"new": encode(new)}))
    tried.run("upgrade new newer", Answer(0, f"roots {len(new.tail)}\n", made={"newer": encode(new)}))
    # In place. The next command reads what came of it.
    tried.run("upgrade new new --atomic", Answer(0, f"roots {len(new.tail)}\n"))
    made = {"out": encode(collection.compaction())}
    tried.run("collect new out --workers 2", Answer(0, collection.figures(), made=made))


def try_version_3(tried: Tried, image: Image) -> None:
    """The heap in version 3, which is upgraded no further, and to no earlier version."""
    new = upgraded(image, 3)
    roots, made = f"roots {len(new.tail)}\n", encode(new)
    tried.run("upgrade image third --to 3", Answer(0, roots, made={"third": made}))
    tried.run("upgrade third third --to 3 --atomic", Answer(0, roots))
    tried.run("upgrade third fourth --to 3", Answer(0, roots, made={"fourth": made}))
    tried.run("upgrade third out --to 2", Answer(1, err="pcompact: version 3 can't be upgraded to version 2\n", made={"out": None}))
    collection = Collection(new)
    tried.run("collect third out --workers 2", Answer(0, collection.figures(), made={"out": encode(collection.compaction())}))


def try_text(tried: Tried, image: Image, chance: random.Random) -> str:
    """The text of a heap both ways, and one that is changed."""
    text = text_of(image)
    tried.run("text image", Answer(0, text))
    tried.write("lines", text)
    tried.run(f"assemble lines made{atomic_or_not(chance)}", assembly(image))
    changed = TextSpoiler(chance, text).spoiled()
    tried.write("lines", changed)
    found = assembled(changed)
    tried.run(f"assemble lines made{atomic_or_not(chance)}", assembly(found) if found else NO_TEXT)
    return "assembled" if found else "refused"


def assembly(image: Image) -> Answer:
    said = f"words {len(image.words)} roots {len(image.roots())} live {len(image.live())}\n"
    return Answer(0, said, made={"made": encode(image)})


def try_verdict(tried: Tried, image: Image, chance: random.Random) -> str:
    """A valid image beside its compaction, which is changed."""
    spoiler = ImageSpoiler(chance, Collection(image).compaction())
    text = spoiler.changed() if chance.randrange(4) else spoiler.spoiled()
    tried.write("after", text)
    try:
        found = verdict(image, decode(text))
    except Fault as first:
        tried.run("verify image after", fault(str(first)))
        return "fault"
    tried.run("verify image after", differs(found) if found else Answer(0, "same\n"))
    return found.split()[0] if found else "same"


def try_shaped(tried: Tried, image: Image, chance: random.Random) -> str:
    """A valid image that is read with another region log and allowance."""
    shaped = dataclasses.replace(image, region_log=chance.choice([3, 4, image.region_log, chance.randint(3, 20)]),
                                 allowance=chance.choice([0, 1, chance.randint(0, len(image.words)), 2 ** 64 - 1]))
    options = f"--region-log {shaped.region_log} --allowance {shaped.allowance}"
    try:
        collection = Collection(decode(encode(shaped)))
    except Fault as first:
        tried.run(f"summary image {options}", fault(str(first)))
        return "refused"
    tried.run(f"summary image {options}", Answer(0, collection.report()))
    made = {"out": encode(collection.compaction())}
    tried.run(f"collect image out --workers {chance.randint(1, 8)} {options}", Answer(0, collection.figures(), made=made))
    tried.run(f"verify image out {options}", Answer(0, "same\n"))
    return "taken"


def try_replay(tried: Tried, collection: Collection, name: str, text: bytes) -> str:
    tried.write(name, text)
    try:
        schedule = read(text)
    except Fault as first:
        tried.run(f"replay image {name}", fault(str(first)))
        return "malformed"
    try:
        said = replayed(collection, schedule)
    except Fault as first:
        tried.run(f"replay image {name}", fault(str(first)))
        tried.run(f"timeline image {name}", fault(str(first)))
        return "refused"
    tried.run(f"replay image {name}", Answer(0, said))
    try_timeline(tried, name, said)
    return said.split()[-1]


def try_timeline(tried: Tried, name: str, said: str) -> None:
    """The lanes of a schedule, of which `replay` said this, where that isn't too long for the model."""
    *lines, end = said.splitlines(True)
    if len(lines) <= MANY_LINES:
        timeline, width = Timeline(read("".join(lines).encode()), end.strip()), len(said) % 100 + 1
        tried.run(f"timeline image {name} --letters --width {width}", Answer(0, timeline.text(width)))
        tried.run(f"timeline image {name} --html drawn", Answer(0, timeline.figures()))


def try_schedules(tried: Tried, collection: Collection, chance: random.Random) -> list[str]:
    """A valid image with schedules, right and wrong."""
    alone = recorded_by_one(collection)
    if len(collection.image.words) > MANY_WORDS:
        return [try_replay(tried, collection, "spoiled", ScheduleSpoiler(chance, alone).spoiled())]
    made = ScheduleMaker(chance, collection).schedule()
    of_another = recorded_by_one(Collection(ImageMaker(chance).image()))
    found = [try_replay(tried, collection, "made", made.text().encode())]
    for name in ("spoiled1", "spoiled2", "spoiled3", "spoiled4"):
        schedule = chance.choice([made, made, made, unreplied(made), unreplied(alone), alone, of_another])
        found.append(try_replay(tried, collection, name, ScheduleSpoiler(chance, schedule).spoiled()))
    return found


def unreplied(schedule: Schedule) -> Schedule:
    return dataclasses.replace(schedule, lines=[line.replied(ANY) for line in schedule.lines])


def try_case(tried: Tried, chance: random.Random) -> list[str]:
    """Runs one case, and tells of which kinds it was."""
    image = (LimitMaker if chance.randrange(200) == 0 else ImageMaker)(chance).image()
    text = chance_of(chance, 50, encode(image), ImageSpoiler(chance, image).spoiled())
    tried.write("image", text)
    try:
        image = decode(text)
    except Fault as first:
        try_refused(tried, str(first), chance)
        return [f"fault {str(first).split()[0]}"]
    collection = Collection(image)
    try_collected(tried, collection, chance)
    replays = try_schedules(tried, collection, chance)
    kinds = [f"version {image.version}", f"verdict {try_verdict(tried, image, chance)}"]
    if len(image.words) <= MANY_WORDS:
        kinds.append(f"text {try_text(tried, image, chance)}")
        kinds.append(f"shape {try_shaped(tried, image, chance)}")
    return kinds + [f"replay {kind}" for kind in replays] + (["at a limit"] if len(image.words) > MANY_WORDS else [])
