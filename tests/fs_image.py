"""The small volumes that tests/fs runs the program on: 80 blocks, laid out byte by byte from the description of the structure.

Headers 1 to 40 stand in blocks 3 to 42, the storage bitmap in 43 and 44, and from block 45 on what the files hold.
"""
import pathlib
import struct
import sys

sys.dont_write_bytecode = True
sys.path.insert(0, str(pathlib.Path(__file__).resolve().parent.parent / "bench"))
from make_image import BLOCK, SYSTEM, Entry, Volume, attributes, lines, name, put_sum  # noqa: E402

__all__ = ["BLOCK", "BLOCKS", "INDEX_BLOCKS", "MAP_PLACE", "MOST_FILES", "SYSTEM", "ZEROS", "Entry", "Volume",
           "attributes", "changed", "entries", "lines", "name", "put_sum", "sequenced", "variable"]
BLOCKS = 80
MOST_FILES = 40
INDEX_BLOCKS = 3 + MOST_FILES
MAP_PLACE = INDEX_BLOCKS
ZEROS = bytes(32)


def variable(*records: bytes, pad: bool = True) -> bytes:
    """Variable records: a length, the data, and a byte where the length is odd, which the last may lack."""
    data = b"".join(struct.pack("<H", len(record)) + record + bytes(len(record) % 2) for record in records)
    return data if pad or len(records[-1]) % 2 == 0 else data[:-1]


def sequenced(*records: tuple[int, bytes]) -> bytes:
    """Sequenced records: the first two bytes of each are its number."""
    return variable(*(struct.pack("<H", number) + record for number, record in records))


def entries(text: str) -> list[Entry | None]:
    """Entries of a directory: names, each with its file ID behind it, as NOTES.TXT;1 9,1; - is an empty one."""
    words = iter(text.split())
    return [None if word == "-" else (word, *map(int, next(words).split(","))) for word in words]


def changed(image: bytes, lbn: int, at: int, data: bytes, has_sum: bool = True) -> bytes:
    """The image with other bytes in a block, and where it is a header its sum made right."""
    block = bytearray(image[BLOCK * lbn : BLOCK * (lbn + 1)])
    block[at : at + len(data)] = data
    if has_sum:
        put_sum(block, 255)
    return image[: BLOCK * lbn] + bytes(block) + image[BLOCK * (lbn + 1) :]
