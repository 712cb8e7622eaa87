"""Changes images and schedules so that they are nearly valid, or still are."""
import dataclasses
import random

from tests.fuzz.generators import LARGEST
from tests.models.image import FRONT, LIMITS, MAGICS, MAX_REGIONS, MAX_WORDS, Image, encode, header, is_sound, references_of, size_of
from tests.models.schedule import ANY, FORMS, LARGEST_NUMBER, MAX_WORKERS, Schedule


class ImageSpoiler:
    """Makes valid images slightly wrong, mostly."""

    def __init__(self, chance: random.Random, image: Image):
        self.chance = chance
        self.words = list(image.words)
        self.tail = list(image.tail)
        self.version = image.version
        self.image = image
        self.live = image.live()

    def text(self) -> bytes:
        return encode(dataclasses.replace(self.image, version=self.version, words=self.words, tail=self.tail))

    def changed(self) -> bytes:
        """Another image, mostly valid where the first one is: other plain data, roots to the same objects in another
        order, or a live object that lies in the data of the one that was live."""
        if self.image.version != 1 and self.tail and self.chance.randrange(2):
            self.chance.shuffle(self.tail)
        if self.chance.randrange(3) == 0:
            self.exchange_for_inner()
        elif self.chance.randrange(2):
            kept = {word for a in self.live for word in range(a, a + 1 + references_of(self.words[a]))}
            a = self.chance.randrange(len(self.words))
            self.words[a] = self.words[a] if a in kept else self.near(self.words[a])
        return self.text()

    def exchange_for_inner(self) -> None:
        """Lets an object live in place of the one around it, to which no object refers."""
        words = self.words
        referred = {words[field] for a in self.live for field in range(a + 1, a + 1 + references_of(words[a]))}
        outer = [a for a in self.live if 1 + a not in referred]
        inner = [(a, b) for a in outer for b in range(a + 1 + references_of(words[a]), a + size_of(words[a]))
                 if is_sound(words, b) and b + size_of(words[b]) <= a + size_of(words[a])]
        if inner:
            a, b = self.chance.choice(inner)
            base = int(self.version != 1)
            self.tail = [base + b if number == base + a else number for number in self.tail]

    def spoiled(self) -> bytes:
        changes = [self.spoil_header, self.spoil_reference, self.spoil_word, self.spoil_tail, self.spoil_order,
                   self.lay_inside, self.exchange_versions]
        for change in self.chance.choices(changes, k=self.chance.choice([0, 1, 1, 2, 3])):
            change()
        text = self.text()
        cuts = [self.cut, self.go_on, self.spoil_front, self.spoil_front, self.go_to_limits]
        return self.chance.choice(cuts)(text) if self.chance.randrange(3) == 0 else text

    def near(self, number: int) -> int:
        """Another number: one near by, one at an edge, or any."""
        words = len(self.words)
        chance = self.chance
        some = [number + 1, number - 1, self.with_a_bit(number), 0, words - 1, words, words + 1, LARGEST]
        return chance.choice([*some, chance.randrange(words)]) % (LARGEST + 1)

    def with_a_bit(self, number: int) -> int:
        return number ^ 1 << self.chance.randrange(64)

    def spoil_header(self) -> None:
        if self.live:
            a = self.chance.choice(self.live)
            change = self.chance.choice([self.near, self.with_a_bit, self.with_a_bit, self.near_header])
            self.words[a] = change(self.words[a])

    def near_header(self, word: int) -> int:
        """A header whose size or number of references is one more, one less, or at its limit."""
        size, references = size_of(word), references_of(word)
        chance = self.chance
        size = chance.choice([size, size - 1, size + 1, references, 0, len(self.words), 2 ** 32 - 1])
        references = chance.choice([references, references + 1, size - 1, size, 2 ** 24 - 1])
        return header(max(size, 0), min(max(references, 0), 2 ** 24 - 1), chance.choice([1, 1, 1, 0, 2, 255]))

    def spoil_reference(self) -> None:
        fields = [field for a in self.live for field in range(a + 1, a + 1 + references_of(self.image.words[a]))]
        if fields:
            field = self.chance.choice(fields)
            self.words[field] = self.near(self.words[field])

    def spoil_word(self) -> None:
        a = self.chance.randrange(len(self.words))
        self.words[a] = self.near(self.words[a])

    def spoil_tail(self) -> None:
        if self.tail:
            i = self.chance.randrange(len(self.tail))
            self.tail[i] = self.near(self.tail[i])

    def spoil_order(self) -> None:
        """Takes one out, puts one in, or exchanges two, which is no fault among roots."""
        if not self.tail:
            return
        i, j = (self.chance.randrange(len(self.tail)) for _ in range(2))
        kind = self.chance.randrange(3)
        if kind == 0:
            del self.tail[i]
        elif kind == 1:
            self.tail.insert(i, self.near(self.tail[j]))
        else:
            self.tail[i], self.tail[j] = self.tail[j], self.tail[i]

    def exchange_versions(self) -> None:
        """Roots in place of the live list or the other way round, as references, as addresses or as they are."""
        self.version = self.chance.choice([version for version in (1, 2, 3) if version != self.version])
        change = self.chance.choice([0, 1, -1])
        self.tail = [(number + change) % (LARGEST + 1) for number in self.tail]

    def lay_inside(self) -> None:
        """An object in the data of another one, and something that leads to it, or nothing."""
        a = self.chance.choice(self.live) if self.live else 0
        data = range(a + 1 + references_of(self.image.words[a]), a + size_of(self.image.words[a])) if self.live else []
        if not data:
            return
        b = self.chance.choice(data)
        self.words[b] = header(self.chance.randint(1, 4), 0)
        if self.chance.randrange(3) and len(self.tail) < len(self.words):
            self.tail = [*self.tail, 1 + b] if self.version != 1 else sorted({*self.tail, b})

    def cut(self, text: bytes) -> bytes:
        return text[:self.chance.choice([len(text) - 1, len(text) - 8, self.chance.randrange(len(text)), 32, 31])]

    def go_on(self, text: bytes) -> bytes:
        return text + bytes(self.chance.choice([1, 8, 40]))

    def spoil_front(self, text: bytes) -> bytes:
        """Another magic, region log, count, length or allowance; sometimes with a body that is as long as they say."""
        magic, *numbers = FRONT.unpack_from(text)
        chance = self.chance
        i = chance.randrange(len(numbers))
        numbers[i] = chance.choice([self.near(numbers[i]), *self.limits(*numbers)[i]]) % (1 << (32 if i < 2 else 64))
        magic = chance.choice([magic] * 6 + [b"PCHEAP01", b"PCHEAP02", b"PCHEAP00", b"PCHEAP03", b"pcheap01", bytes(8)])
        _, count, length, _ = numbers
        end = FRONT.size + 8 * (length + count)
        body = text[FRONT.size:]
        if end < 1 << 20 and chance.randrange(2):
            body = body[:end - FRONT.size].ljust(end - FRONT.size, b"\0")
        return FRONT.pack(magic, *numbers) + body

    def go_to_limits(self, text: bytes) -> bytes:
        """A head of as many words, regions or roots as there may be, or a region or a root more, and no such body."""
        magic, _, _, _, allowance = FRONT.unpack_from(text)
        _, words, regions = LIMITS[MAGICS[magic]]
        log = self.chance.choice([2, 3, 7, 8, 9, 16, 17, 20, 21])
        length = min(regions << log, words) + self.chance.choice([0, 0, 1 << log])
        count = min(self.chance.choice([0, 1, length, length + 1]), 2 ** 32 - 1)
        return FRONT.pack(magic, log, count, length, allowance) + text[FRONT.size:]

    def limits(self, log: int, count: int, length: int, _allowance: int) -> list[list[int]]:
        """Of each number of the head some at its limits."""
        region = 1 << min(log, 16)
        lengths = [0, region, length + region, length - region, length + 1, length // 2, MAX_WORDS,
                   MAX_WORDS + region, MAX_REGIONS * region, (MAX_REGIONS + 1) * region, 1 << 32, 1 << 61, 1 << 63]
        counts = [0, count + 1, length, length + 1, MAX_WORDS, MAX_WORDS + 1, 2 ** 32 - 1]
        return [[2, 3, 4, 16, 17, 31, 32, 63, 64, 2 ** 32 - 1], counts, lengths, [0, 1, LARGEST]]


class ScheduleSpoiler:
    """Makes the text of a schedule slightly wrong, mostly."""

    def __init__(self, chance: random.Random, schedule: Schedule):
        self.chance = chance
        self.workers = schedule.workers
        self.lines = schedule.text().splitlines(keepends=True)

    def spoiled(self) -> bytes:
        chance = self.chance
        of_lines = [self.exchange, self.exchange, self.leave_out, self.double, self.move, self.join_copies]
        of_words = [self.change_number, self.change_number, self.change_reply, self.change_reply, self.change_worker]
        of_text = [self.change_space, self.change_form, self.change_first_line, self.change_first_line, self.add_line,
                   self.cut, self.change_byte]
        for _ in range(chance.choice([1, 1, 1, 2, 3])):
            chance.choice(chance.choice([of_lines, of_lines, of_words, of_words, of_text]))()
        return "".join(self.lines).encode("latin-1")

    def place(self) -> int | None:
        """A line after the first one."""
        return self.chance.randrange(1, len(self.lines)) if len(self.lines) > 1 else None

    def edit(self, change) -> None:
        """Changes the words of one line."""
        i = self.place()
        if i is not None:
            self.lines[i] = " ".join(change(self.lines[i].rstrip("\n").split(" "))) + "\n"

    def exchange(self) -> None:
        """Exchanges two lines, mostly neighbours."""
        i, j = self.place(), self.place()
        if i is not None:
            j = self.chance.choice([min(i + 1, len(self.lines) - 1), j])
            self.lines[i], self.lines[j] = self.lines[j], self.lines[i]

    def leave_out(self) -> None:
        i = self.chance.choice([self.place(), len(self.lines) - 1])
        if i:
            del self.lines[i]

    def double(self) -> None:
        i = self.place()
        if i is not None:
            self.lines.insert(self.chance.choice([i, i, len(self.lines)]), self.lines[i])

    def move(self) -> None:
        i = self.place()
        if i is not None:
            line = self.lines.pop(i)
            self.lines.insert(self.chance.randint(1, len(self.lines)), line)

    def join_copies(self) -> None:
        """Makes one line of two copies to a region that follow one another."""
        words = [line.split(" ") for line in self.lines]
        some = [i for i, (one, other) in enumerate(zip(words, words[1:])) if len(one) == len(other) == 5
                and one[1] == other[1] == "copy" and one[2] == other[2] and one[3].isdecimal() and other[3].isdecimal()]
        if some:
            i = self.chance.choice(some)
            self.lines[i:i + 2] = [" ".join([*words[i][:3], str(int(words[i][3]) + int(words[i + 1][3])), words[i][4]])]

    def change_number(self) -> None:
        def change(words: list[str]) -> list[str]:
            places = [i for i, word in enumerate(words) if word.isdecimal()]
            if places:
                i = self.chance.choice(places)
                words[i] = self.near(words[i])
            return words
        self.edit(change)

    def near(self, word: str) -> str:
        """Another number, as it should be written or not."""
        number = int(word)
        limits = [0, 64, LARGEST_NUMBER, LARGEST_NUMBER + 1, LARGEST_NUMBER + 1 + number, LARGEST, LARGEST + 1 + number]
        spellings = [f"0{number}", f"+{number}", f"-{number}", f"{number}.0", hex(number), f"{number}_0", ""]
        beside = [number + 1, max(number - 1, 0)]
        some = self.chance.choice([beside, beside, limits, spellings])
        return str(self.chance.choice(some))

    def change_reply(self) -> None:
        def change(words: list[str]) -> list[str]:
            own = FORMS[words[1]][1] if len(words) > 1 and words[1] in FORMS else ()
            others = [reply for _, replies in FORMS.values() for reply in replies]
            wrong = [words[-1].upper(), words[-1][:-1], words[-1] + "s", "", "??"]
            some = self.chance.choice([own or others, own or others, others, wrong, ANY])
            return [*words[:-1], self.chance.choice(some)]
        self.edit(change)

    def change_worker(self) -> None:
        """Another worker, there or not. Sometimes there are as many as there may be."""
        if self.chance.randrange(3) == 0:
            self.workers = MAX_WORKERS
            self.lines[0] = f"schedule 1 {MAX_WORKERS}\n"
        workers = [*[self.chance.randrange(self.workers)] * 3, self.workers - 1, self.workers, self.workers + 1]
        self.edit(lambda words: [str(self.chance.choice(workers)), *words[1:]])

    def change_space(self) -> None:
        """A space, tab or return too many, or another one in place of a space."""
        i = self.chance.randrange(len(self.lines))
        line = self.lines[i]
        places = [place for place, byte in enumerate(line) if byte in " \n"] or [0]
        place = self.chance.choice([0, *places])
        space = self.chance.choice([" ", " ", "\t", "\r", "\v", "\0", "\xa0", "\n"])
        self.lines[i] = line[:place] + space + line[self.chance.choice([place, place, place + 1]):]

    def change_form(self) -> None:
        """A word too many, one too few, or one of another event."""
        def change(words: list[str]) -> list[str]:
            i = self.chance.randrange(len(words))
            several = [words[:i] + words[i + 1:], words[:i] + [words[i]] + words[i:],
                       [*words[:1], self.chance.choice([*FORMS, "CLAIM", "steal"]), *words[2:]]]
            return self.chance.choice(several)
        self.edit(change)

    def change_first_line(self) -> None:
        over = MAX_WORKERS + 1
        numbers = [0, 1, 2, 3, MAX_WORKERS, over, over, over + 1, 100, LARGEST_NUMBER + 2, LARGEST + 2]
        workers = self.chance.choice([*numbers, "01", "", "1 1"])
        version = self.chance.choice([1, 1, 1, 1, 0, 2, "01"])
        word = self.chance.choice(["schedule"] * 12 + ["Schedule", "schedules", " schedule", "\xef\xbb\xbfschedule"])
        self.lines[0] = f"{word} {version} {workers}\n"

    def add_line(self) -> None:
        some = ["\n", "# a comment\n", "0 poll ?\n", "0 look 0 ?\n", "0 claim 0 ?\n", "schedule 1 1\n", "0 poll ?"]
        self.lines.insert(self.chance.randint(0, len(self.lines)), self.chance.choice(some))

    def cut(self) -> None:
        """The text ends sooner: without its last newline, or anywhere."""
        text = "".join(self.lines)
        end = self.chance.choice([len(text) - 1, len(text) - 1, self.chance.randrange(len(text) + 1)])
        self.lines = text[:end].splitlines(keepends=True) or [""]

    def change_byte(self) -> None:
        i = self.chance.randrange(len(self.lines))
        place = self.chance.randrange(len(self.lines[i]) or 1)
        byte = chr(self.chance.choice([0, 13, 32, 63, 127, 128, 255, self.chance.randrange(256)]))
        self.lines[i] = self.lines[i][:place] + byte + self.lines[i][place + 1:]


class TextSpoiler:
    """Makes the text of a heap slightly wrong, mostly."""

    def __init__(self, chance: random.Random, text: str):
        self.chance = chance
        self.lines = text.splitlines()

    def spoiled(self) -> str:
        changes = [self.change_word, self.change_word, self.change_word, self.leave_out_word, self.double_word,
                   self.leave_out_line, self.double_line, self.exchange_lines, self.change_space]
        for change in self.chance.choices(changes, k=self.chance.choice([1, 1, 1, 2])):
            if self.lines:
                change()
        text = "".join(f"{line}\n" for line in self.lines)
        return text[:-1] if self.chance.randrange(20) == 0 else text

    def place(self) -> int:
        return self.chance.randrange(len(self.lines))

    def words(self, line: int) -> tuple[list[str], int]:
        """The words of a line, and the place of one of them."""
        words = self.lines[line].split(" ")
        return words, self.chance.randrange(len(words))

    def change_word(self) -> None:
        """Another word: one of this text, a number or an address near by or any, or one that is spelled otherwise."""
        line = self.place()
        words, at = self.words(line)
        others, other = self.words(self.place())
        number = self.chance.choice([0, 1, 2, 3, 999, self.chance.randrange(64), self.chance.getrandbits(64), 1 << 64])
        digits = words[at].lstrip("@")
        near = [str(int(digits) + self.chance.choice([-1, 1]))] if digits.isdecimal() else []
        words[at] = self.chance.choice([others[other], str(number), f"@{number}", "null", "refs", "data", "of", "words", "dead",
                                        "object", f"0{words[at]}", f"+{words[at]}", f"@{digits}", digits,
                                        *near * 6, *(f"@{n}" for n in near * 6)])
        self.lines[line] = " ".join(words)

    def leave_out_word(self) -> None:
        line = self.place()
        words, at = self.words(line)
        self.lines[line] = " ".join(words[:at] + words[at + 1:])

    def double_word(self) -> None:
        line = self.place()
        words, at = self.words(line)
        self.lines[line] = " ".join(words[:at + 1] + words[at:])

    def leave_out_line(self) -> None:
        del self.lines[self.place()]

    def double_line(self) -> None:
        line = self.place()
        self.lines.insert(line, self.lines[line])

    def exchange_lines(self) -> None:
        one, other = self.place(), self.place()
        self.lines[one], self.lines[other] = self.lines[other], self.lines[one]

    def change_space(self) -> None:
        line = self.place()
        text = self.lines[line]
        at = self.chance.randrange(len(text) + 1)
        self.lines[line] = text[:at] + self.chance.choice([" ", "\t", "\r", "\x00", "é"]) + text[at:]
