"""Random small volumes, and damage of one kind or another in them, for tests/fs_repairs.

A volume has up to 35 files and directories, some of them of several headers, in blocks that lie anywhere. Header n stands in block n + 2.
"""
import dataclasses
import random
import struct

from fs_image import BLOCK, MAP_PLACE, MOST_FILES, SYSTEM, Entry, Volume, attributes, changed, lines
from fs_loose import Loose

LETTERS = "ABCDEFGHIJKLMNOPQRSTUVWXYZ0123456789$%&"
LOST = "001003.DIR;1"


def patch(image: bytearray, lbn: int, at: int, data: bytes, has_sum: bool = True) -> None:
    """Puts bytes into a block, and where it is a header makes its sum right."""
    place = slice(BLOCK * lbn, BLOCK * (lbn + 1))
    image[place] = changed(bytes(image[place]), 0, at, data, has_sum)


def set_bit(image: bytearray, lbn: int, bit: int, value: bool) -> None:
    """Sets or clears a bit of the bits that begin in a block."""
    at = BLOCK * lbn + bit // 8
    image[at] = image[at] & ~(1 << bit % 8) | value << bit % 8


class Maker:
    """Makes a volume file by file."""

    def __init__(self, pick: random.Random) -> None:
        self.pick = pick
        self.volume = Volume(pick.choice((80, 120, 200, 300, 600)))
        self.places = [*range(MAP_PLACE + 2, self.volume.blocks)]
        if pick.random() < 0.7:
            pick.shuffle(self.places)
        self.numbers = [*range(6, MOST_FILES + 1)]
        pick.shuffle(self.numbers)
        self.sequences = {number: pick.choice((1, 1, 1, 2, 7, 300, 65535)) for number in self.numbers}
        self.lines: dict[int, list[Entry | None]] = {4: [*SYSTEM]}
        self.names = {4: "000000.DIR;1"}
        # Some room is left for what a repair makes.
        self.spare = pick.choice((0, 1, 3, 3, 8, 8))

    def left(self) -> int:
        """How many blocks are free for files; directories take two at most."""
        return len(self.places) - self.spare - 2 * len(self.lines)

    def take(self, count: int) -> list[int]:
        """So many free blocks."""
        taken, self.places = self.places[:count], self.places[count:]
        return taken if self.pick.random() < 0.5 else sorted(taken)

    def name(self, kind: str | None = None) -> str:
        """A random name; few letters, so that some are alike."""
        pick = self.pick
        title = "".join(pick.choice(LETTERS[: pick.choice((2, 39))]) for _ in range(pick.choice((1, 1, 2, 9))))
        if kind is None:
            kind = pick.choice(("", "T", "TXT", "MAC", "DAT"))
        return f"{title}.{kind};{pick.choice((1, 1, 1, 2, 3, 77, 32767))}"

    def enter(self, number: int, text: str) -> None:
        """Enters a file in a random directory, under a name that it has not."""
        folder = self.pick.choice([*self.lines])
        taken = {line[0] for line in self.lines[folder] if line}
        while text in taken:
            text = self.name(text.partition(".")[2].partition(";")[0])
        self.lines[folder].append((text, number, self.sequences[number]))

    def add_directories(self) -> None:
        """Directories below the master directory, or below one another; they are written in the end."""
        for text in [LOST] * (self.pick.random() < 0.5) + ["001002.DIR;1"] + [self.name("DIR") for _ in range(self.pick.randrange(4))]:
            number = self.numbers.pop()
            self.names[number] = text
            if text in (LOST, "001002.DIR;1"):
                self.lines[4].append((text, number, self.sequences[number]))
            else:
                self.enter(number, text)
            self.lines[number] = []

    def add_file(self) -> None:
        """A file, of one header or more."""
        pick, number, text = self.pick, self.numbers.pop(), self.name()
        data = pick.randbytes(max(0, min(self.left(), pick.choice((0, 1, 2, 3, 9)))) * BLOCK)
        data = data[: len(data) - pick.randrange(100)] if data else data
        places = self.take(-(-len(data) // BLOCK))
        self.add_chain(number, text, data, places, min(pick.choice((1, 1, 1, 2, 3)), len(places), len(self.numbers)) or 1)
        self.enter(number, text)
        if pick.random() < 0.1:
            self.enter(number, text)

    def add_chain(self, number: int, text: str, data: bytes, places: list[int], headers: int, kind: int = 1, size: int = 512, end: int | None = None) -> None:
        """Writes a file with its blocks shared out among so many headers."""
        volume, share = self.volume, -(-len(places) // headers)
        chain = [number, *(self.numbers.pop() for _ in range(headers - 1))]
        attr = attributes(kind, 0, size, len(places), len(data) if end is None else end)
        flags = self.pick.choice((0, 0, 0, 0o200))
        for at, header in enumerate(chain):
            part = places[share * at : share * (at + 1)]
            volume.file(header, text, data[share * at * BLOCK : share * (at + 1) * BLOCK], part, attr=attr, flags=flags, owner=self.pick.choice((0o401, 0o1003)))
            following = chain[at + 1] if at + 1 < len(chain) else 0
            link = struct.pack("<BBHH", at, 0, following, self.sequences[following] if following else 0)
            patch(volume.image, 2 + header, 92, link)
            if header > 5:
                patch(volume.image, 2 + header, 4, struct.pack("<H", self.sequences[header]))

    def write_directories(self) -> None:
        """Writes the directories: their entries in any order, empty ones between them, and in some a used one behind the end."""
        for number, entries in self.lines.items():
            pick = self.pick
            slots = entries + [None] * pick.choice((0, 0, 1, 3))
            pick.shuffle(slots)
            data = lines(slots)
            end = len(data)
            if pick.random() < 0.1:
                data += lines([("HIDDEN.TXT;1", pick.choice((3, 99)), 3)])
            places = self.take(max(-(-len(data) // BLOCK), pick.choice((0, 1, 1, 2))))
            self.add_chain(number, self.names[number], data, places, 1, size=16, end=end)

    def bytes(self) -> bytes:
        """The image."""
        self.add_directories()
        for _ in range(self.pick.randrange(3, 26)):
            if len(self.numbers) > self.spare and self.left() > 0:
                self.add_file()
        self.write_directories()
        return self.volume.bytes()


@dataclasses.dataclass
class Damage:
    """What is done to an image: functions that return whether they found something to spoil."""

    pick: random.Random
    image: bytearray

    @property
    def volume(self) -> Loose:
        return Loose(bytes(self.image))

    def slot(self) -> tuple[int, int, int] | None:
        """An entry of a directory, but for those of the volume's own files: its block, its place there, and the number that it names."""
        volume = self.volume
        found = []
        for number in volume.directories:
            file = volume.files[number]
            for at, line in volume.slots(file):
                if line[0] > 5 and file.blocks:
                    found.append((file.blocks[at // BLOCK], at % BLOCK, line[0]))
        return self.pick.choice(found) if found else None

    def file(self, is_long: bool = False) -> int | None:
        """A file above 5 that is no directory; one of several headers, where that is asked."""
        volume = self.volume
        found = [file.number for file in volume.files.values() if file.number > 5 and file.blocks and not volume.is_directory(file) and (len(file.headers) > 1) >= is_long]
        return self.pick.choice(found) if found else None

    def used(self) -> bool:
        """Held blocks are marked free."""
        volume = self.volume
        held = sorted(volume.holders)
        for lbn in self.pick.sample(held, min(len(held), self.pick.choice((1, 2, 5, 40)))):
            set_bit(self.image, MAP_PLACE + 1, lbn, True)
        return True

    def free(self) -> bool:
        """Blocks that no file holds are marked used."""
        volume = self.volume
        free = [lbn for lbn in range(volume.blocks) if volume.free[lbn] and lbn not in volume.holders]
        begin = self.pick.randrange(len(free)) if free else 0
        chosen = free[begin : begin + self.pick.choice((1, 2, 10))] if self.pick.random() < 0.5 else self.pick.sample(free, min(len(free), self.pick.choice((1, 2, 10))))
        # Some are left for what else is made.
        for lbn in chosen[: max(0, len(free) - 4)]:
            set_bit(self.image, MAP_PLACE + 1, lbn, False)
        return True

    def names(self) -> bool:
        """An entry names no file: its sequence number is another, or its number is that of no file."""
        slot = self.slot()
        if slot is None:
            return False
        lbn, at, number = slot
        volume = self.volume
        sequence = volume.files[number].sequence if number in volume.files else 1
        none = [other for other in (*range(6, MOST_FILES + 1), 41, 4096, 65535) if other not in volume.files]
        ids = [(number, sequence % 65535 + 1), (self.pick.choice(none), sequence)]
        patch(self.image, lbn, at, struct.pack("<HH", *self.pick.choice(ids)), has_sum=False)
        return True

    def lost(self) -> bool:
        """An entry goes."""
        slot = self.slot()
        if slot is None:
            return False
        lbn, at, _ = slot
        patch(self.image, lbn, at, bytes(self.pick.choice((2, 16))), has_sum=False)
        return True

    def nameless(self) -> bool:
        """The name in a header spells none, and no entry names the file."""
        slot = self.slot()
        if slot is None or slot[2] not in self.volume.files or self.volume.is_directory(self.volume.files[slot[2]]):
            return False
        patch(self.image, slot[0], slot[1], bytes(16), has_sum=False)
        patch(self.image, 2 + slot[2], 46 + 2 * self.pick.randrange(4), struct.pack("<H", self.pick.choice((64_000, 65_535))))
        return True

    def sum(self) -> bool:
        """The sum of a header is wrong: of a file, of an extension header, or seldom of one of the first files."""
        numbers = [number for number in range(6, MOST_FILES + 1) if self.volume.is_in_use(number)]
        number = self.pick.choice(numbers * 3 + [1, 2]) if numbers else 2
        patch(self.image, 2 + number, 200, b"\x99\x66", has_sum=False)
        return True

    def shared(self) -> bool:
        """A pointer of a file names one block, of any file, of BITMAP.SYS or behind the end."""
        number = self.file()
        if number is None:
            return False
        volume = self.volume
        lbn = self.pick.choice([*volume.holders, MAP_PLACE + 1, volume.blocks, volume.blocks + 700])
        patch(self.image, 2 + number, 102, struct.pack("<BBH", 0, 0, lbn))
        return True

    def share(self) -> bool:
        """A run of a file begins in another one, and leaves its own blocks free."""
        number, volume = self.file(), self.volume
        if number is None or number in volume.directories or not volume.header(number)[100]:
            return False
        high, count, low = struct.unpack_from("<BBH", volume.header(number), 102)
        own = range(high << 16 | low, (high << 16 | low) + count + 1)
        places = [lbn for lbn, numbers in volume.holders.items() if min(numbers) > 5 and numbers != [number] and lbn + count < volume.blocks]
        if not places:
            return False
        lbn = self.pick.choice(places)
        for block in own:
            set_bit(self.image, MAP_PLACE + 1, block, volume.holders.get(block) == [number])
        for block in range(lbn, lbn + count + 1):
            set_bit(self.image, MAP_PLACE + 1, block, False)
        patch(self.image, 2 + number, 102, struct.pack("<BBH", lbn >> 16, count, lbn & 0xFFFF))
        return True

    def double(self) -> bool:
        """Two entries of a directory get the same name."""
        volume = self.volume
        for number in self.pick.sample([*volume.directories], len(volume.directories)):
            file = volume.files[number]
            slots = [at for at, _ in volume.slots(file)]
            if len(slots) > 1 and file.blocks:
                one, other = self.pick.sample(slots, 2)
                words = volume.data(file)[one + 6 : one + 16]
                patch(self.image, file.blocks[other // BLOCK], other % BLOCK + 6, words, has_sum=False)
                return True
        return False

    def chain(self) -> bool:
        """The link of a file to its second header says another sequence number, or none."""
        number = self.file(is_long=True)
        if number is None:
            return False
        patch(self.image, 2 + number, 94, self.pick.choice((struct.pack("<HH", number, 1), bytes(4))))
        return True

    def headless(self) -> bool:
        """A number is in use, and has no header: one that a file could have, or one past the last header."""
        volume = self.volume
        numbers = [number for number in range(6, MOST_FILES + 1) if not volume.is_in_use(number)] + [MOST_FILES + 1, 4096]
        set_bit(self.image, 2, self.pick.choice(numbers) - 1, True)
        return True

    def flagged(self) -> bool:
        """A file is marked for deletion, or locked, or ends past its blocks: findings that no repair mends."""
        number = self.file()
        if number is None:
            return False
        at, data = self.pick.choice(((12, b"\x40"), (13, b"\x80"), (24, b"\xff\xff")))
        patch(self.image, 2 + number, at, data)
        return True


KINDS = ("used", "share", "double", "names", "lost", "free")
OTHERS = ("nameless", "sum", "shared", "chain", "headless", "flagged")


def damaged(pick: random.Random) -> tuple[bytes, list[str]]:
    """A random image, and what was done to it."""
    damage = Damage(pick, bytearray(Maker(pick).bytes()))
    kinds = [kind for kind in KINDS if pick.random() < (0.2 if kind == "double" else 0.3 if kind == "share" else 0.5)] * pick.choice((1, 1, 2)) if pick.random() < 0.97 else []
    others = pick.choices(OTHERS, k=pick.choice((1, 1, 2))) if pick.random() < 0.3 else []
    # Others first: what they spoil is found in a volume that is sound.
    done = [kind for kind in [*others, *sorted(kinds, key=KINDS[::-1].index)] if getattr(damage, kind)()]
    return bytes(damage.image), done
