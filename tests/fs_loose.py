"""Reads a volume that may be damaged, byte by byte from the description of the structure; it shares nothing with the program, and refuses nothing.

`Loose(image)` has the headers, files, blocks, bits and entries as they are, and says by itself what is wrong with them. The home block stands in block 1.
"""
import dataclasses
import functools
import struct
from collections.abc import Sequence

BLOCK = 512
CODES = " ABCDEFGHIJKLMNOPQRSTUVWXYZ$&%0123456789"
# An entry of a directory: the number and the sequence number that it names, and the five words of its name.
Line = tuple[int, int, tuple[int, ...]]
DIRECTORY = 1600 * 4 + 40 * 9 + 18  # DIR, as one word


def words(data: bytes, at: int, count: int) -> tuple[int, ...]:
    return struct.unpack_from(f"<{count}H", data, at)


def text_of(name: Sequence[int]) -> str:
    """A name by its words, as NOTES.TXT;2: three of a name, one of a type and the version."""
    letters = "".join(CODES[code // 1600] + CODES[code // 40 % 40] + CODES[code % 40] for code in name[:4])
    return f"{letters[:9].rstrip()}.{letters[9:].rstrip()};{name[4]}"


@dataclasses.dataclass(frozen=True)
class Found:
    """A file by its first header: its ID, the words of its name, its headers and, where its chain is whole, its blocks."""

    number: int
    sequence: int
    name: tuple[int, ...]
    headers: tuple[int, ...]
    blocks: tuple[int, ...] | None
    fault: str = ""  # why the chain is not whole


def is_home_place(lbn: int) -> bool:
    """Whether a home block may stand there."""
    return lbn == 1 or lbn > 0 and lbn % 256 == 0


class Loose:
    """A volume, sound or not."""

    def __init__(self, image: bytes) -> None:
        self.image = image
        self.blocks = len(image) // BLOCK
        self.bit_blocks, high, low, self.most_files = words(self.block(1), 0, 4)
        self.first = high << 16 | low
        self.bits = self.image[self.first * BLOCK : (self.first + self.bit_blocks) * BLOCK]
        self.index: tuple[int, ...] = ()
        index = self.file(1)
        self.index = index.blocks or () if index else ()
        self.most = min(self.most_files, len(self.index) - 2 - self.bit_blocks)
        self.files = {number: file for number in range(1, self.most + 1) if (file := self.file(number))}
        bitmap = self.files.get(2)
        self.bitmap = bitmap.blocks if bitmap else None

    def block(self, lbn: int) -> bytes:
        """The bytes of a block."""
        return self.image[lbn * BLOCK : (lbn + 1) * BLOCK]

    def is_in_use(self, number: int) -> bool:
        """What the index bitmap says of this number."""
        return bool(self.bits[(number - 1) // 8] >> (number - 1) % 8 & 1)

    def header(self, number: int) -> bytes:
        """The block of this header, or none."""
        if number <= 16:
            return self.block(self.first + self.bit_blocks + number - 1)
        at = 2 + self.bit_blocks + number - 1
        return self.block(self.index[at]) if at < len(self.index) else b""

    def is_valid(self, number: int) -> bool:
        """Whether this header has the right sum, number, level, areas and format."""
        header = self.header(number)
        if len(header) < BLOCK or sum(words(header, 0, 255)) & 0xFFFF != words(header, 510, 1)[0]:
            return False
        areas = 23 <= header[0] <= header[1] - 23 and header[100] <= header[101] and 2 * header[1] + 10 + 2 * header[100] <= 510
        return words(header, 2, 1)[0] == number and words(header, 6, 1)[0] == 0o401 and areas and tuple(header[98:100]) == (1, 3)

    def is_segment(self, number: int, segment: int) -> bool:
        """Whether this number is in use and its header is this one of a chain."""
        return 0 < number <= self.most_files and self.is_in_use(number) and self.is_valid(number) and self.header(number)[92] == segment

    def file(self, number: int) -> Found | None:
        """The file of this number, where it is one."""
        if not self.is_segment(number, 0):
            return None
        header = self.header(number)
        sequence, name = words(header, 4, 1)[0], words(header, 46, 5)
        headers, blocks, fault = [number], list[int](), ""
        while True:
            for at in range(102, 102 + 2 * header[100], 4):
                high, count, low = struct.unpack_from("<BBH", header, at)
                blocks += range(high << 16 | low, (high << 16 | low) + count + 1)
            following, its = words(header, 94, 2)
            if following == 0:
                break
            if following in headers or not self.is_segment(following, len(headers)) or words(self.header(following), 4, 1)[0] != its:
                fault = "BadChain"
                break
            headers.append(following)
            header = self.header(following)
        if not fault and any(lbn >= self.blocks for lbn in blocks):
            fault = "OutsideVolume"
        return Found(number, sequence, name, tuple(headers), None if fault else tuple(blocks), fault)

    @functools.cached_property
    def holders(self) -> dict[int, list[int]]:
        """Which files with whole chains hold a block, for each that one holds."""
        found: dict[int, list[int]] = {}
        for file in self.files.values():
            for lbn in file.blocks or ():
                found.setdefault(lbn, []).append(file.number)
        return found

    @functools.cached_property
    def free(self) -> list[bool]:
        """What the storage bitmap says of each block: of none that it is free, where there is no bitmap."""
        bits = b"".join(map(self.block, (self.bitmap or ())[1:])).ljust(self.blocks // 8 + 1, b"\0")
        return [bool(bits[lbn // 8] >> lbn % 8 & 1) for lbn in range(self.blocks)]

    def held_free(self) -> list[int]:
        """Blocks that files hold and that are marked free."""
        return [lbn for lbn in sorted(self.holders) if self.free[lbn]]

    def shared(self) -> list[int]:
        """Blocks that are held twice."""
        return [lbn for lbn, numbers in sorted(self.holders.items()) if len(numbers) > 1]

    def unheld(self) -> list[int]:
        """Blocks that are marked used and that no file holds."""
        return [lbn for lbn in range(1, self.blocks) if not self.free[lbn] and lbn not in self.holders and not is_home_place(lbn)]

    def is_directory(self, file: Found) -> bool:
        """Whether the file is a directory, by its header."""
        return file.number == 4 or file.number > 5 and file.name[3] == DIRECTORY

    @functools.cached_property
    def directories(self) -> dict[int, list[Line]]:
        """The used entries before the end mark of each directory with a whole chain, in order."""
        return {file.number: [line for _, line in self.slots(file)] for file in self.files.values() if self.is_directory(file) and file.blocks is not None}

    def mark(self, file: Found) -> int:
        """Where the file ends, in bytes, within its blocks."""
        high, low, rest = words(self.header(file.number), 22, 3)
        return min(((high << 16 | low) - 1) * BLOCK + rest, len(file.blocks or ()) * BLOCK) if high | low else 0

    def data(self, file: Found) -> bytes:
        """The bytes of all blocks of a file."""
        return b"".join(map(self.block, file.blocks or ()))

    def slots(self, file: Found) -> list[tuple[int, Line]]:
        """The used entries before the mark, each with its place."""
        data, found = self.data(file), []
        for at in range(0, self.mark(file) - 15, 16):
            number, sequence, _, *name = words(data, at, 8)
            if number:
                found.append((at, (number, sequence, tuple(name))))
        return found

    def hides(self, number: int) -> bool:
        """Whether a directory has used entries behind its end mark."""
        file = self.files[number]
        data = self.data(file)
        return any(words(data, at, 1)[0] for at in range(self.mark(file), len(data) - 15, 16))

    def names_file(self, line: Line) -> bool:
        """Whether an entry names a file, by number and sequence number."""
        file = self.files.get(line[0])
        return file is not None and file.sequence == line[1]

    def dangling(self) -> list[tuple[int, Line]]:
        """Entries that name no file, each with its directory."""
        return [(number, line) for number, lines in self.directories.items() for line in lines if not self.names_file(line)]

    def lost(self) -> list[Found]:
        """Files above 5 that no entry names, rising."""
        named = {line[:2] for lines in self.directories.values() for line in lines}
        return [file for file in self.files.values() if file.number > 5 and (file.number, file.sequence) not in named]

    def lost_headers(self) -> list[int]:
        """Extension headers that no file reaches by its whole chain."""
        reached = {number for file in self.files.values() if file.fault != "BadChain" for number in file.headers}
        return [number for number in range(1, self.most + 1) if self.is_in_use(number) and self.is_valid(number) and self.header(number)[92] and number not in reached]

    def missing(self) -> list[int]:
        """Numbers in use without a valid header."""
        return [number for number in range(1, 8 * len(self.bits) + 1) if self.is_in_use(number) and not self.is_valid(number)]

    def faults(self) -> set[str]:
        """The names of the faults for which a mount refuses the image."""
        found = {file.fault for file in self.files.values() if file.fault}
        reached = [number for file in self.files.values() for number in file.headers]
        if len({*reached}) < len(reached):
            found.add("BadChain")
        if self.bitmap is None or len(self.bitmap) < 2:
            return found | {"BadStorageMap"}
        if 4 not in self.files:
            found.add("BadMaster")
        if any(len(numbers) > 1 for numbers in self.holders.values()):
            found.add("DoublyUsed")
        if self.held_free():
            found.add("MarkedFree")
        for lines in self.directories.values():
            if any(not is_good(line) for line in lines):
                found.add("BadDirectory")
        if self.doubled():
            found.add("DuplicateName")
        return found

    def doubled(self) -> list[int]:
        """Directories with two entries of one name and version."""
        return [number for number, lines in sorted(self.directories.items()) if len({name for _, _, name in lines}) < len(lines)]


def is_good(line: Line) -> bool:
    """Whether the words of an entry spell a name with a version."""
    return all(word < 64_000 for word in line[2][:4]) and 0 < line[2][4] <= 0o77777


def runs_of(numbers: list[int]) -> list[tuple[int, int]]:
    """The runs of rising numbers: the first and the last of each."""
    runs: list[tuple[int, int]] = []
    for number in numbers:
        if runs and runs[-1][1] == number - 1:
            runs[-1] = runs[-1][0], number
        else:
            runs.append((number, number))
    return runs
