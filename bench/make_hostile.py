#!/usr/bin/env python3
"""Writes an image by which a check could need memory or time by the square of its size.

usage: make_hostile.py IMAGE one FILES         files that name one block
       make_hostile.py IMAGE pairs FILES       files of which each two name one block
       make_hostile.py IMAGE dirs COUNT BLOCKS directories over the same blocks, full of names that name no file
       make_hostile.py IMAGE nested COUNT      directories one in another; the volume is sound
"""
import pathlib
import sys
from collections.abc import Callable

from make_image import FIRST_NUMBER, SYSTEM, Volume, lines


def title(number: int) -> str:
    """A number as a name of nine characters."""
    text = ""
    while number:
        text = "ABCDEFGHIJKLMNOPQRSTUVWXYZ"[number % 26] + text
        number //= 26
    return text or "A"


def volume_for(files: int, blocks: int) -> Volume:
    """A volume with room for so many files, and for so many blocks. The greatest numbers are those of extension headers."""
    most = files + FIRST_NUMBER
    size = most + most // 4096 + 3 + blocks
    return Volume(size + size // 4095 + 2, most, range(most, 0, -1))


def same_blocks(count: int, block_of: Callable[[int], int]) -> bytes:
    """Files that the master directory names; each has one block, the one that `block_of` says of its number."""
    volume = volume_for(count, count // 32 + 2 + count // 2 + 1)
    names = [f"{title(place)}.DAT;1" for place in range(count)]
    volume.directory(4, "000000.DIR;1", *SYSTEM, *((text, FIRST_NUMBER + place, 1) for place, text in enumerate(names)))
    first = volume.take(count // 2).start
    for place, text in enumerate(names):
        volume.file(FIRST_NUMBER + place, text, None, [first + block_of(place)], kind=0)
    return volume.bytes()


def same_directories(count: int, blocks: int) -> bytes:
    """Directories over the same blocks, each entry of which names a file that is not there."""
    volume = volume_for(count + 8, blocks + 8)
    names, places = lines((f"{title(number)}.DAT;1", 30000, 9) for number in range(32 * blocks)), volume.take(blocks)
    volume.directory(4, "000000.DIR;1", *((f"{title(number)}.DIR;1", FIRST_NUMBER + number, 1) for number in range(count)))
    for number in range(count):
        volume.file(FIRST_NUMBER + number, f"{title(number)}.DIR;1", names, places, kind=1, size=16)
    return volume.bytes()


def nested(count: int) -> bytes:
    """Directories of which each names the next one."""
    volume, names = volume_for(count, count + 8), [f"{title(place)}.DIR;1" for place in range(count)]
    for place, text in enumerate(["000000.DIR;1", *names]):
        volume.directory(FIRST_NUMBER + place - 1 if place else 4, text, *((name, FIRST_NUMBER + place, 1) for name in names[place : place + 1]))
    return volume.bytes()


def main() -> None:
    _, image, kind, *words = sys.argv
    counts = [int(word) for word in words]
    makers: dict[str, Callable[..., bytes]] = {
        "one": lambda files: same_blocks(files, lambda _: 0),
        "pairs": lambda files: same_blocks(files, lambda place: place % (files // 2)),
        "dirs": same_directories,
        "nested": nested,
    }
    pathlib.Path(image).write_bytes(makers[kind](*counts))


if __name__ == "__main__":
    main()
