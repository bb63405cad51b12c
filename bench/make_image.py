#!/usr/bin/env python3
"""Writes a sound Files-11 ODS-1 image: a large one by default, and the same bytes for the same words. `Volume` makes any volume, file by file.

The image has the five reserved files, directories that the master directory names, and plain files that the directories name in turn. Free blocks are
full of bytes 5A. On standard output stand the counts that a mount has to find.
"""
import argparse
import itertools
import pathlib
import struct
from collections.abc import Iterable, Sequence
from typing import Any

BLOCK = 512
MOST_BLOCKS = 1_048_576
POINTERS = 102  # pointers that one header has room for
PROTECTION = 0o160000
LEVEL = 0o401
FIRST_NUMBER = 6  # the least number that is not reserved
CREATED, REVISED = b"01JAN80103000", b"02FEB81114500"
# Characters by their codes; names show the space before another character as _.
CODES = {letter: code for code, letter in enumerate(" ABCDEFGHIJKLMNOPQRSTUVWXYZ$&%0123456789")} | {"_": 0}
# Bytes, by a name that no method has.
Data = bytes
# An entry of a directory: a name, and the file ID that it names.
Entry = tuple[str, int, int]
# Consecutive blocks: the LBN of the first, and their count.
Piece = tuple[int, int]
SYSTEM: list[Entry] = [("INDEXF.SYS;1", 1, 1), ("BITMAP.SYS;1", 2, 2), ("BADBLK.SYS;1", 3, 3), ("000000.DIR;1", 4, 4), ("CORIMG.SYS;1", 5, 5)]


def name(text: str) -> list[int]:
    """The five words of a name, as NOTES.TXT;2."""
    full, version = text.split(";")
    title, kind = full.split(".")
    codes = [CODES[letter] for letter in f"{title:<9}{kind:<3}"]
    return [1600 * first + 40 * second + third for first, second, third in zip(codes[::3], codes[1::3], codes[2::3])] + [int(version)]


def lines(entries: Iterable[Entry | None]) -> bytes:
    """The bytes of a directory; an entry is a name with a number and a sequence number, or none for an empty one."""
    return b"".join(bytes(16) if entry is None else struct.pack("<8H", entry[1], entry[2], 0, *name(entry[0])) for entry in entries)


def put_sum(block: bytearray, words: int) -> None:
    """Puts the sum of the first words behind them."""
    total = sum(struct.unpack_from(f"<{words}H", block)) & 0xFFFF
    struct.pack_into("<H", block, 2 * words, total)


def attributes(kind: int, control: int, size: int, blocks: int, end: int) -> bytes:
    """The record attributes: F.RTYP, F.RATT, F.RSIZ, F.HIBK, and F.EFBK and F.FFBY by the count of bytes; the high word of a count is first."""
    return struct.pack("<BBH5H", kind, control, size, *divmod(blocks, 65536), *divmod(end // BLOCK + 1, 65536), end % BLOCK).ljust(32, b"\0")


def blocks_for(size: int) -> int:
    """How many blocks so many bytes need."""
    return -(-size // BLOCK)


def pieces_of(places: Iterable[int]) -> list[Piece]:
    """The pieces of blocks in this order."""
    found: list[Piece] = []
    for lbn in places:
        if found and sum(found[-1]) == lbn:
            found[-1] = found[-1][0], found[-1][1] + 1
        else:
            found.append((lbn, 1))
    return found


class Volume:
    """A volume that is made file by file; the blocks of a file are given, or are the next ones. `spare` are the numbers of further headers, in order."""

    def __init__(self, blocks: int = 80, most_files: int = 40, spare: Iterable[int] = ()) -> None:
        self.blocks, self.spare = blocks, iter(spare)
        self.before_headers = 1 + -(-most_files // 4096)  # header n stands n blocks behind this one
        self.map_place = self.before_headers + 1 + most_files
        self.next = self.map_place + 1 + -(-blocks // 4096)
        self.image = bytearray(b"\x5a") * (BLOCK * blocks)
        self.image[: BLOCK * self.next] = bytes(BLOCK * self.next)
        self.is_held = bytearray(blocks)
        home = bytearray(BLOCK)
        struct.pack_into("<7H", home, 0, self.before_headers - 1, 0, 2, most_files, 1, 0, LEVEL)
        struct.pack_into("<H", home, 36, PROTECTION)
        put_sum(home, 29)
        home[496:508] = b"DECFILE11A  "
        put_sum(home, 255)
        self.put(1, home)
        self.file(1, "INDEXF.SYS;1", places=range(self.map_place), kind=1, data=None)
        self.file(2, "BITMAP.SYS;1", places=range(self.map_place, self.next), kind=1, data=None)
        self.file(3, "BADBLK.SYS;1", kind=1)
        self.file(5, "CORIMG.SYS;1", kind=1)

    def put(self, lbn: int, data: Data | bytearray) -> None:
        """Writes bytes from a block on."""
        self.image[BLOCK * lbn : BLOCK * lbn + len(data)] = data

    def directory(self, number: int, text: str, *entries: Entry | None, **more: Any) -> None:
        """A directory with these entries, of one block or more."""
        data = lines(entries)
        self.file(number, text, data, kind=1, size=16, **{"places": None if len(data) > BLOCK else self.take(1), **more})

    def take(self, count: int) -> range:
        """The next blocks."""
        self.next += count
        assert self.next <= self.blocks, "the volume has too few blocks"
        return range(self.next - count, self.next)

    def file(self, number: int, text: str, data: Data | None = b"", places: Iterable[int] | None = None, kind: int = 2, control: int = 0, size: int = 0,
             attr: Data | None = None, owner: int = 0o401, rights: int = PROTECTION, flags: int = 0, dates: Data = CREATED + REVISED,
             pieces: Sequence[Piece] = ()) -> None:
        """A file with these bytes, its headers, their index bits; `places` are its blocks, in order, or `pieces`, each with pointers of its own."""
        pieces = pieces or pieces_of(self.take(blocks_for(len(data or b""))) if places is None else places)
        blocks, at = sum(count for _, count in pieces), 0
        for lbn, count in pieces:
            self.is_held[lbn : lbn + count] = b"\1" * count
            if data is not None:
                self.put(lbn, data[at : at + BLOCK * count].ljust(BLOCK * count, b"\0"))
                at += BLOCK * count
        if attr is None:
            attr = attributes(kind, control, size, blocks, BLOCK * blocks if data is None else len(data))
        runs = [(lbn + at, min(256, count - at)) for lbn, count in pieces for at in range(0, count, 256)]
        parts = [runs[at : at + POINTERS] for at in range(0, len(runs), POINTERS)] or [[]]
        sequence = number if number < FIRST_NUMBER else 1
        chain = [number, *itertools.islice(self.spare, len(parts) - 1), 0]
        assert len(chain) > len(parts), "the volume has too few headers"
        for segment, part in enumerate(parts):
            this, following = chain[segment : segment + 2]
            block = bytearray(BLOCK)
            struct.pack_into("<BBHHHHHH", block, 0, 23, 46, this, sequence, LEVEL, owner, rights, flags)
            block[14:46] = attr
            struct.pack_into("<6H", block, 46, *name(text), 1)
            block[58:84] = dates[13:] + dates[:13]
            struct.pack_into("<BBHHBBBB", block, 92, segment, 0, following, sequence if following else 0, 1, 3, 2 * len(part), 2 * POINTERS)
            for place, (lbn, count) in enumerate(part):
                struct.pack_into("<BBH", block, 102 + 4 * place, lbn >> 16, count - 1, lbn & 0xFFFF)
            put_sum(block, 255)
            self.put(self.before_headers + this, block)
            self.image[2 * BLOCK + (this - 1) // 8] |= 1 << (this - 1) % 8

    def bytes(self, used: Sequence[int] = (), free: Sequence[int] = ()) -> Data:
        """The image, with these blocks marked as used, or as free, whatever holds them."""
        for lbn in range(self.blocks):
            is_free = lbn in free or not self.is_held[lbn] and lbn not in used
            self.image[BLOCK * (self.map_place + 1) + lbn // 8] |= is_free << lbn % 8
        return bytes(self.image)


def parse_words() -> argparse.Namespace:
    parser = argparse.ArgumentParser(description=__doc__, formatter_class=argparse.RawDescriptionHelpFormatter)
    parser.add_argument("image", help="the file to write")
    parser.add_argument("--blocks", type=int, default=MOST_BLOCKS, help="blocks of the image")
    parser.add_argument("--files", type=int, default=10_000, help="files, with reserved ones and directories")
    parser.add_argument("--directories", type=int, default=200, help="directories below the master directory")
    parser.add_argument("--held", type=int, default=300_000, help="blocks that files hold, with reserved files")
    parser.add_argument("--most-files", type=int, default=12_000, help="H.FMAX, headers that the index file has")
    parser.add_argument("--scattered", type=int, default=100, help="files in pieces of one or two blocks")
    parser.add_argument("--pieces", type=int, default=150, help="pieces of a scattered file")
    parser.add_argument("--scattered-blocks", type=int, help="blocks of a scattered file; with none, three for two pieces")
    parser.add_argument("--packed", action="store_true", help="leave no free blocks between the pieces of files")
    parser.add_argument("--tree", type=pathlib.Path, help="also puts the plain files into this folder, for another file system")
    return parser.parse_args()


def split(total: int, parts: int) -> list[int]:
    """The total as so many counts that differ by one at most."""
    return [total // parts + (place < total % parts) for place in range(parts)]


def sizes_of(words: argparse.Namespace, count: int, blocks: int) -> list[list[int]]:
    """The sizes of the pieces of each plain file: some have many pieces, the others one to three."""
    size = words.scattered_blocks or words.pieces + words.pieces // 2
    left = blocks - size * words.scattered
    if left < 0:
        raise SystemExit("make_image: too few blocks for the scattered files")
    others = split(left, count - words.scattered)
    return [split(size, words.pieces)] * words.scattered + [split(size, min(size, 1 + place % 3)) for place, size in enumerate(others)]


def first_number(most_files: int) -> int:
    """The number of the first directory. The index file's further headers stand before it: up to number 16 they are found without that file."""
    return FIRST_NUMBER + (1 + -(-most_files // 4096) + most_files) // (256 * POINTERS)


def volume_of(words: argparse.Namespace) -> Volume:
    """The volume that these words mean; its plain files are full of their numbers."""
    first = first_number(words.most_files)
    number, count = first + words.directories, words.files - 5 - words.directories
    if count < words.scattered or words.directories < 1:
        raise SystemExit("make_image: too few files")
    volume = Volume(words.blocks, words.most_files, [*range(FIRST_NUMBER, first), *range(number + count, words.most_files + 1)])
    shares = split(count, words.directories)
    places = [volume.take(blocks_for(16 * size)) for size in (words.directories + 5, *shares)]
    sizes = sizes_of(words, count, words.held - volume.next)
    gap = 0 if words.packed else (words.blocks - words.held) // max(1, sum(map(len, sizes)))
    folders = [f"{place // 200 + 1:03o}{place % 200 + 1:03o}" for place in range(words.directories)]
    below = [(f"{folder}.DIR;1", first + place, 1) for place, folder in enumerate(folders)]
    volume.file(4, "000000.DIR;1", lines(SYSTEM + below), places[0], kind=1, size=16)
    for place, (folder, share) in enumerate(zip(folders, shares)):
        numbers = range(number, number + share)
        volume.file(first + place, f"{folder}.DIR;1", lines((f"F{it:05}.DAT;1", it, 1) for it in numbers), places[1 + place], kind=1, size=16)
        if words.tree:
            (words.tree / folder).mkdir(parents=True)
        number += share
        for it in numbers:
            data, pieces = struct.pack("<H", it) * (BLOCK // 2 * sum(sizes[0])), []
            for size in sizes.pop(0):
                pieces.append((volume.take(size).start, size))
                volume.next += gap
            volume.file(it, f"F{it:05}.DAT;1", data, kind=0, pieces=pieces)
            if words.tree:
                (words.tree / folder / f"{it:05}").write_bytes(data)
    return volume


def main() -> None:
    words = parse_words()
    if not 16 <= words.most_files <= 65535 or not 1 <= words.blocks <= MOST_BLOCKS:
        raise SystemExit("make_image: --blocks or --most-files is out of range")
    volume = volume_of(words)
    pathlib.Path(words.image).write_bytes(volume.bytes())
    headers = sum(byte.bit_count() for byte in volume.image[2 * BLOCK : BLOCK * (1 + volume.before_headers)])
    print(f"free {volume.is_held.count(0)}\nnumbers {words.most_files - headers}")


if __name__ == "__main__":
    main()
