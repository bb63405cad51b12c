"""The volumes that tests/fs runs the programs on, what is spoiled in some of them, and bytes that the rows of tests/rows/ name."""
import functools
import os
import struct
from collections.abc import Callable, Sequence
from typing import Any

from fs_image import BLOCK, BLOCKS, INDEX_BLOCKS, MAP_PLACE, ZEROS, Volume, attributes, changed, entries, name, put_sum, sequenced, variable

TASK = bytes(place % 251 for place in range(700))
LARGE = bytes(place * place % 251 for place in range(5 * BLOCK))
SPOILT = variable(b"good") + b"\x32\x00short"
LONG = variable(b"a" * 500) + b"\xff\xff" + b"\x77" * 8 + variable(b"second")
# Names in the order in which they are listed.
NAMES = """
    $.TXT;1 %.TXT;1 &.TXT;1 1.TXT;1 A.;32767 A.;1 A.$;1 A.1;1 A.A;1 A$.TXT;1 A1.TXT;1 AA.TXT;1 A_A.TXT;1 Z.TXT;12 Z.TXT;3
"""
# The names of the reserved files.
RESERVED = "INDEXF.SYS;1 1,1 BITMAP.SYS;1 2,2 BADBLK.SYS;1 3,3 CORIMG.SYS;1 5,5"


def odd_volume() -> Volume:
    """A volume that is served, with much that is out of the ordinary."""
    volume = Volume()
    volume.directory(4, "000000.DIR;1", *entries("""
        SUB.DIR;1 7,1 INDEXF.SYS;1 1,1 LONG.TXT;1 21,1 000000.DIR;1 4,4 BITMAP.SYS;1 2,2 -
        CORIMG.SYS;1 5,5 001002.DIR;1 6,1 BADBLK.SYS;1 3,3 EMPTY.DIR;1 20,1
    """))
    volume.directory(6, "001002.DIR;1", *entries("""
        TASK.TSK;3 12,1 NOTES.TXT;1 9,1 - SHORT.DAT;1 14,1 NOTES.TXT;2 10,1 PLAIN.DAT;1 13,1
        GONE.TXT;1 30,1 SPOILT.TXT;1 15,1 NUMBERED.TXT;1 11,1
    """), owner=0o402)
    volume.directory(7, "SUB.DIR;1", *entries("STALE.TXT;1 17,9 README.;1 18,1 NOTES.MAC;1 22,1 LOW.DIR;1 8,1 EMPTY.TXT;1 19,1"))
    volume.directory(8, "LOW.DIR;1", *entries("LOW.DIR;1 8,1 DEEP.TXT;1 16,1"))
    volume.directory(20, "EMPTY.DIR;1")
    volume.file(9, "NOTES.TXT;1", variable(b"first", b"", b"third line"), control=2, size=10)
    volume.file(10, "NOTES.TXT;2", variable(b"new", b"two"), control=2, size=3)
    volume.file(11, "NUMBERED.TXT;1", sequenced((10, b"ten"), (20, b"twenty!")), kind=3, control=2, size=9)
    volume.file(13, "PLAIN.DAT;1", b"plain" * 100, attr=ZEROS, dates=bytes(26))
    volume.file(14, "SHORT.DAT;1", b"x" * 512, attr=attributes(1, 0, 512, 1, 600))
    volume.file(15, "SPOILT.TXT;1", SPOILT)
    volume.file(16, "DEEP.TXT;1", variable(b"even", b"odd", pad=False), control=2, size=4)
    volume.file(17, "LOST.TXT;5", variable(b"lost", b"found"), control=2, size=5)
    volume.file(18, "README.;1", variable(b" page", b"1top"), control=1, size=5)
    volume.file(19, "EMPTY.TXT;1", control=2)
    volume.file(21, "LONG.TXT;1", LONG, control=2, size=500, flags=0o200)
    volume.file(22, "NOTES.MAC;1", b"MACRO\r\n", kind=7)
    volume.file(12, "TASK.TSK;3", TASK, places=[70, 72], kind=1, size=512, owner=0o200 << 8 | 0o40, rights=0xFE80)
    return volume


def plain_volume(notes: bytes = b"first", numbers: tuple[int, int] = (6, 9), blocks: int = BLOCKS, **more: Any) -> Volume:
    """A sound volume: a directory, two text files and a binary one."""
    folder, text = numbers
    volume = Volume(blocks)
    volume.directory(4, "000000.DIR;1", *entries(f"000000.DIR;1 4,4 001002.DIR;1 {folder},1 {RESERVED}"))
    volume.directory(folder, "001002.DIR;1", *entries(f"NOTES.TXT;1 {text},1 OTHER.TXT;1 10,1 TASK.TSK;3 12,1"))
    volume.file(text, "NOTES.TXT;1", variable(notes), **{"control": 2, "size": 5, **more})
    volume.file(10, "OTHER.TXT;1", variable(b"other"), control=2, size=5)
    volume.file(12, "TASK.TSK;3", TASK, kind=1, size=512)
    return volume


def images() -> dict[str, bytes]:
    """The images by name. In the plain ones NOTES.TXT is file 9 in block 47, and header n stands in block n + 2."""
    odd, plain, used = odd_volume().bytes(), plain_volume().bytes(), plain_volume().bytes(used=[65, 66])
    first = plain[BLOCK * 46 + 6 : BLOCK * 46 + 16]  # the name of the first entry of [1,2]
    return {
        "odd": odd,
        "plain": plain,
        "same": plain_volume(numbers=(7, 20), owner=0o1003, rights=0, dates=b"03MAR90000000" * 2).bytes(),
        "other": plain_volume(b"fIrst").bytes(),
        "attributes": plain_volume(size=80).bytes(),
        "cut": plain[:-7],
        "empty": b"",
        "homeless": changed(plain, 1, 0, b"\2", has_sum=False),
        "free": plain_volume().bytes(free=[47]),
        "two": changed(plain_volume().bytes(free=[47]), 46, 16 + 6, first, has_sum=False),
        "twin": changed(plain, 46, 16 + 6, first, has_sum=False),
        "format": changed(plain, 2 + 9, 98, b"\2"),
        "used": used,
        # Number 25 is in use, and has no header.
        "headless": changed(plain, 2, 25 // 8, bytes([plain[2 * BLOCK + 25 // 8] | 1]), has_sum=False),
        "unfreed": changed(used, 2, 25 // 8, bytes([used[2 * BLOCK + 25 // 8] | 1]), has_sum=False),
    }


def shut_volume() -> Volume:
    """A volume with a directory that the world may not read, and one below that which it may."""
    volume = Volume()
    volume.directory(4, "000000.DIR;1", *entries("OPEN.DIR;1 6,1 SHUT.DIR;1 7,1"))
    volume.directory(6, "OPEN.DIR;1", *entries("A.TXT;1 9,1"))
    volume.directory(7, "SHUT.DIR;1", *entries("B.TXT;1 10,1 BELOW.DIR;1 8,1"), owner=0o200 << 8 | 0o40, rights=0xFE80)
    volume.directory(8, "BELOW.DIR;1", *entries("C.TXT;1 11,1"))
    volume.file(9, "A.TXT;1", variable(b"a"))
    volume.file(10, "B.TXT;1", variable(b"b"))
    volume.file(11, "C.TXT;1", variable(b"c"))
    return volume


def names_volume() -> Volume:
    """A volume whose names stand in another order than they are listed, in two blocks."""
    volume = Volume()
    names = [(name, 30, 1) for name in reversed(NAMES.split())]
    names += [("000000.DIR;1", 4, 4), *[None] * 20, ("MIDDLE.TXT;1", 30, 1)]
    volume.directory(4, "000000.DIR;1", *names, places=volume.take(2))
    return volume


def ring_volume() -> Volume:
    """A volume with directories that name one another, and with names of type DIR that are none."""
    volume = Volume()
    volume.directory(4, "000000.DIR;1", *entries("B.DIR;1 7,1 A.DIR;1 6,1 FAKE.DIR;1 9,1 HIDDEN.DAT;1 7,1"))
    volume.directory(6, "A.DIR;1", *entries("B.DIR;1 7,1 ROOT.DIR;1 4,4 X.TXT;1 9,1"))
    volume.directory(7, "B.DIR;1", *entries("A.DIR;1 6,1 Y.TXT;1 9,1"))
    volume.file(9, "X.TXT;1", variable(b"x"))
    return volume


def second_master_volume() -> Volume:
    """A volume with a directory 000000.DIR that is not the master directory, with one in it."""
    volume = Volume()
    volume.directory(4, "000000.DIR;1", *entries("000000.DIR;1 6,1 X.TXT;1 9,1"))
    volume.directory(6, "000000.DIR;1", *entries("A.DIR;1 7,1 Y.TXT;1 10,1"))
    volume.directory(7, "A.DIR;1", *entries("Z.TXT;1 11,1"))
    volume.file(9, "X.TXT;1", variable(b"x"))
    volume.file(10, "Y.TXT;1", variable(b"y"))
    volume.file(11, "Z.TXT;1", variable(b"z"))
    return volume


def index_volume(places: Sequence[int], free: Sequence[int] = (), blocks: int = 80) -> Volume:
    """A volume with these blocks of INDEXF.SYS; `free` are those that are not its own any more."""
    volume = Volume(blocks)
    volume.directory(4, "000000.DIR;1", *entries(f"000000.DIR;1 4,4 {RESERVED} NOTES.TXT;1 9,1"))
    volume.file(9, "NOTES.TXT;1", variable(b"first"), control=2, size=5)
    volume.file(1, "INDEXF.SYS;1", places=places, kind=1, data=None)
    for lbn in free:
        volume.is_held[lbn] = False
    return volume


def late_volume() -> Volume:
    """The same with its home block in block 256, and zeros in block 1, the place below it."""
    volume = index_volume([0, 256, *range(2, INDEX_BLOCKS)], [1], 300)
    volume.put(256, volume.image[BLOCK : 2 * BLOCK])
    volume.put(1, bytes(BLOCK))
    return volume


def spoiled_images() -> dict[str, bytes]:
    """Images whose files share blocks and headers, and whose index is bad."""
    pairs, twice, shared_headers, answer, held = plain_volume(), plain_volume(), plain_volume(), plain_volume(), late_volume()
    pairs.file(13, "COPY.TSK;1", TASK, kind=1, size=512, places=[50, 49])  # the blocks of TASK.TSK, file 12, turned round
    twice.file(12, "TASK.TSK;3", TASK, kind=1, size=512, places=[49, 49])
    twice.is_held[50] = False
    shared_headers.file(27, "NOTES.TXT;1")
    shared = changed(shared_headers.bytes(), 2 + 27, 92, b"\1")
    for number in (9, 10):  # header 27 is the second of both
        shared = changed(shared, 2 + number, 94, b"\x1b\0\1\0")
    answer.file(10, "OTHER.TXT;1", variable(b"other"), places=[47])
    answer.is_held[48] = False
    held.file(9, "NOTES.TXT;1", variable(b"first"), control=2, size=5, places=[1])
    held.is_held[46] = False
    # VBN 3 is the index bitmap, block 2, and header n has VBN n + 3 and block n + 2.
    rest = {
        "misplaced": index_volume([0, 1, 2, 3, 60, *range(5, INDEX_BLOCKS)], [4]),
        "otherhome": index_volume([0, 60, *range(2, INDEX_BLOCKS), 1]),
        "short": index_volume(range(18), range(18, INDEX_BLOCKS)),
        "lowfree": late_volume(),
        "lowheld": held,
        "pairs": pairs,
        "twice_held": twice,
    }
    return {**{name: volume.bytes() for name, volume in rest.items()}, "shared": shared, "answer": answer.bytes(free=[50])}


def few_volume() -> Volume:
    """The plain volume with one file less and one more."""
    volume = Volume()
    volume.directory(4, "000000.DIR;1", *entries(f"000000.DIR;1 4,4 001002.DIR;1 6,1 {RESERVED} MORE.TXT;1 10,1"))
    volume.directory(6, "001002.DIR;1", *entries("NOTES.TXT;1 9,1 TASK.TSK;3 12,1"))
    volume.file(9, "NOTES.TXT;1", variable(b"first"), control=2, size=5)
    volume.file(10, "MORE.TXT;1", variable(b"more"), control=2, size=4)
    volume.file(12, "TASK.TSK;3", TASK, kind=1, size=512)
    return volume


def old_volume() -> Volume:
    """A volume with one text in [1,2]."""
    volume = Volume()
    volume.directory(4, "000000.DIR;1", *entries(f"000000.DIR;1 4,4 001002.DIR;1 6,1 {RESERVED}"))
    volume.directory(6, "001002.DIR;1", *entries("OLD.TXT;4 9,1"))
    volume.file(9, "OLD.TXT;4", variable(b"old"), control=2, size=3)
    return volume


def long_image() -> bytes:
    """The plain volume whose NOTES.TXT has a second block, which stands in another header."""
    volume = plain_volume(variable(b"x" * 600)[2:], kind=1)
    volume.file(9, "NOTES.TXT;1", b"1" * 512, places=[70], attr=attributes(1, 0, 512, 2, 700))
    volume.file(27, "NOTES.TXT;1", b"2" * 512, places=[60])
    volume.is_held[47] = volume.is_held[48] = False
    return changed(changed(volume.bytes(), 2 + 9, 94, b"\x1b\0\1\0"), 2 + 27, 92, b"\1")


def more_images() -> dict[str, bytes]:
    """Images for cmp and rescue."""
    plain = plain_volume().bytes()
    same_names = Volume()
    same_names.directory(4, "000000.DIR;1")
    same_names.file(9, "SAME.TXT;1", b"one", kind=1)
    same_names.file(10, "SAME.TXT;1", b"two", kind=1)
    later = plain_volume()
    later.file(26, "LATER.TXT;1")
    doubly = plain_volume()
    doubly.file(10, "OTHER.TXT;1", variable(b"other"), places=[47])
    doubly.is_held[48] = False
    # the plain volume where the index bitmap does not say that INDEXF.SYS, BITMAP.SYS or the master directory is there
    lacks = [changed(plain, 2, 0, bytes([plain[2 * BLOCK] & ~(1 << bit)]), has_sum=False) for bit in (0, 1, 3)]
    return {
        "noindex": lacks[0],
        "nomap": lacks[1],
        "nomaster": lacks[2],
        "badentry": changed(plain, 46, 14, b"\0", has_sum=False),
        "nodirectory": changed(changed(changed(plain, 46, 14, b"\0", has_sum=False), 46, 30, b"\0", has_sum=False), 46, 46, b"\0", has_sum=False),
        "outside": changed(plain, 2 + 9, 104, b"\xc8\0"),
        "later": changed(later.bytes(), 2 + 26, 92, b"\1"),
        "doubly": doubly.bytes(),
        "long": long_image(),
        "ring": ring_volume().bytes(),
        "zeros": second_master_volume().bytes(),
        "shut": shut_volume().bytes(),
        "names": names_volume().bytes(),
        "few": few_volume().bytes(),
        "stale": changed(plain, 46, 16 + 2, b"\7", has_sum=False),
        "twonames": same_names.bytes(),
        "broken": changed(plain, 2 + 9, 94, b"\x1e\0\1\0"),
    }


def crowded_volume() -> Volume:
    """The plain volume with a file that has all other blocks."""
    volume = plain_volume()
    volume.file(13, "FULL.DAT;1", b"full", places=[lbn for lbn in range(volume.blocks) if not volume.is_held[lbn] and lbn > 1], kind=1, size=512)
    return volume


def repair_images() -> dict[str, bytes]:
    """Images with what repair mends, beside those of images() and more_images() that have it."""
    plain = plain_volume().bytes()
    images = {
        "lost": plain,
        "full-lost": crowded_volume().bytes(used=[0, 1]),
        "full-free-lost": crowded_volume().bytes(used=[0, 1], free=[47]),
        "all-used-lost": plain_volume().bytes(used=range(BLOCKS)),
    }
    # The entry of NOTES.TXT is empty.
    lost = {name: changed(image, 46, 0, b"\0\0", has_sum=False) for name, image in images.items()}
    return {**lost, "both": plain_volume().bytes(free=[47], used=[65])}


def blocks_of(image: bytes, lbn: int, size: int) -> bytes:
    """So many bytes of an image from a block on."""
    return image[BLOCK * lbn : BLOCK * lbn + size]


# The records of an object module, eight cards, and these in blocks; and a record that leaves little of a block, with the mark that the rest is not used.
OBJECT = [b"\x01\x00\x0a\x0d\x00\xff\x07", b"\x03\x00", b""]
CARDS = b"".join(f"CARD {number}".encode().ljust(80) for number in range(8))
IN_BLOCKS = CARDS[:480] + b"#" * 32 + CARDS[480:]
FIRST = variable(b"a" * 500) + b"\xff\xff"


def record_volume() -> bytes:
    """A volume with a file of each form in [1,2]."""
    volume = Volume()
    files = {
        "PROG.OBJ;1": (variable(*OBJECT), {"size": 128}),
        "NOTES.TXT;1": (variable(b"one", b"two"), {"control": 2, "size": 3}),
        "PLAIN.DAT;1": (variable(b"one", b"two"), {"size": 3}),
        "SPLIT.LST;1": (variable(b"a\nb", b"c"), {"control": 2, "size": 3}),
        "SEQ.TXT;1": (sequenced((10, b"ten"), (20, b"twenty")), {"kind": 3, "control": 2}),
        "VFC.TXT;1": (variable(b"abcdone", b"efghtwo"), {"attr": attributes(3, 2, 0, 1, 20)[:15] + b"\4" + bytes(16)}),
        "CARDS.DAT;1": (CARDS, {"kind": 1, "control": 2, "size": 80}),
        "BLOCKS.DAT;1": (IN_BLOCKS, {"kind": 1, "control": 10, "size": 80}),
        "LARGE.DAT;1": (CARDS, {"kind": 1, "control": 10, "size": 600}),
        "STREAM.TXT;1": (b"one\r\ntwo\r\n", {"kind": 4, "control": 2}),
        "INDEX.DAT;1": (variable(b"one", b"two"), {"attr": attributes(0o42, 2, 3, 1, 12)}),
        "LONG.OBJ;1": (variable(*OBJECT), {"size": 5}),
        "ORG.OBJ;1": (variable(*OBJECT), {"attr": attributes(0o42, 0, 128, 1, len(variable(*OBJECT)))}),
        "HEADED.OBJ;1": (variable(b"abcd\x00", b"efgh\x01"), {"attr": attributes(3, 0, 0, 1, 16)[:15] + b"\4" + bytes(16)}),
        "NOEND.DAT;1": (b"", {"attr": attributes(1, 0, 512, 1, 0)[:8] + bytes(24), "places": [75]}),
    }
    volume.directory(4, "000000.DIR;1", *entries(f"000000.DIR;1 4,4 001002.DIR;1 6,1 {RESERVED}"))
    volume.directory(6, "001002.DIR;1", *((text, 10 + place, 1) for place, text in enumerate(files)))
    for place, (text, (data, more)) in enumerate(files.items()):
        volume.file(10 + place, text, data, **more)
    return volume.bytes()


def named_volume(**more: Any) -> bytes:
    """A volume with the directories [1,2] and [A], the first with these further attributes."""
    volume = Volume()
    volume.directory(4, "000000.DIR;1", *entries(f"000000.DIR;1 4,4 001002.DIR;1 6,1 A.DIR;1 7,1 {RESERVED}"))
    volume.directory(6, "001002.DIR;1", ("NOTES.TXT;1", 9, 1), **more)
    volume.directory(7, "A.DIR;1")
    volume.file(9, "NOTES.TXT;1", variable(b"one"), control=2, size=3)
    return volume.bytes()


def labelled() -> bytes:
    """A sound volume whose home block has a label with a byte that is no character, an owner, level 402 and a date."""
    image = bytearray(plain_volume().bytes())
    home = image[BLOCK : 2 * BLOCK]
    struct.pack_into("<H", home, 12, 0o402)
    home[14:26] = b"DISK\1ONE \0\0\0"
    home[30:32] = bytes([0o15, 2])
    home[60:74] = b"05JUN82091500\0"
    put_sum(home, 29)
    put_sum(home, 255)
    image[BLOCK : 2 * BLOCK] = home
    return bytes(image)


def labelled_and_spoiled() -> bytes:
    """The same volume, with a bit of the storage bitmap that says that block 47 is free, which file 9 holds."""
    image = bytearray(labelled())
    image[44 * BLOCK + 47 // 8] |= 1 << 47 % 8
    return bytes(image)


def unused_volume() -> bytes:
    """A volume with texts whose last records are of many kinds."""
    volume = Volume(400)
    volume.directory(4, "000000.DIR;1", *entries(f"000000.DIR;1 4,4 {RESERVED} CUT.TXT;1 9,1 FULL.TXT;1 10,1 BLOCK.TXT;1 11,1 TWO.TXT;1 12,1 NONE.TXT;1 13,1 UNKNOWN.BIN;1 14,1 WIDE.TXT;1 15,1"))
    volume.file(9, "CUT.TXT;1", FIRST + b"\x77", control=2, size=500)  # the rest of the block begins, and the file ends
    volume.file(10, "FULL.TXT;1", FIRST.ljust(512, b"\x77"), control=2, size=500)  # it ends with the block
    volume.file(11, "BLOCK.TXT;1", variable(b"b" * 510), control=2, size=510)  # the last record ends with its block
    volume.file(12, "TWO.TXT;1", variable(b"c" * 600) + b"\xff\xff", control=2, size=600)  # the mark stands in the second block
    volume.file(13, "NONE.TXT;1", b"\xff\xff", control=2)  # no record, and the first block is not used
    volume.file(14, "UNKNOWN.BIN;1", b"bytes", attr=attributes(0, 0, 0, 1, 5))
    volume.file(15, "WIDE.TXT;1", variable(b"d"), control=2, size=80)
    return volume.bytes()


def pieces_volume() -> bytes:
    """A volume whose free blocks are 275 single ones, and pairs behind them: 525 blocks in the order of their numbers take 400 pointers."""
    singles = {100 + 2 * run for run in range(275)}
    pairs = {650 + 3 * run + second for run in range(130) for second in range(2)}
    return plain_volume(blocks=1040).bytes(used=sorted(set(range(1040)) - singles - pairs))


ODD = odd_volume().bytes()
# What files have, by the names that the rows call it by.
CONTENTS = {
    "odd": ODD,
    "storage-map": blocks_of(ODD, MAP_PLACE, 2 * BLOCK),
    "plain-storage-map": blocks_of(plain_volume().bytes(), MAP_PLACE, 2 * BLOCK),
    "ring-directory": blocks_of(ring_volume().bytes(), 46, 48),
    "sub-directory": blocks_of(ODD, 47, 80),
    "low-directory": blocks_of(ODD, 48, 32),
    "long-text": LONG,
    "all-bytes": bytes(range(256)),
    "one-task": LARGE,
    "long-file": bytes(place * place % 253 for place in range(525 * BLOCK)),
    "spoilt": SPOILT,
    "task": TASK,
    "few-image": few_volume().bytes(),
}


def with_word_sum(block: bytes, words: int) -> bytes:
    """Returns a block with the sum of so many words behind them."""
    return block[: 2 * words] + struct.pack("<H", sum(struct.unpack_from(f"<{words}H", block)) & 0xFFFF) + block[2 * words + 2 :]


def with_label(label: bytes, image: bytes) -> bytes:
    """Returns an image with a label in its home block, and both sums."""
    home = image[BLOCK : 2 * BLOCK]
    home = with_word_sum(home[:14] + label.ljust(12, b"\0") + home[26:], 29)
    home = with_word_sum(home[:472] + label.ljust(12, b" ") + home[484:], 255)
    return image[:BLOCK] + home + image[2 * BLOCK :]


def marked(names: int) -> bytes:
    """A volume with a directory of two names, whose end mark is after so many of them."""
    volume = plain_volume()
    volume.directory(30, "001007.DIR;1", ("A.DAT;1", 3, 3), ("B.DAT;1", 3, 3))
    return changed(volume.bytes(), 32, 14 + 8, struct.pack("<HHH", 0, 1 if names else 0, 16 * names))


def spoiled_twins() -> bytes:
    """A volume with a directory that has one name twice, and a bad entry behind it."""
    volume = plain_volume()
    volume.directory(30, "001007.DIR;1", ("A.DAT;1", 3, 3), ("A.DAT;1", 3, 3), ("B.DAT;1", 3, 3))
    good, bad = (struct.pack("<4H", 3, 3, 0, word) for word in (name("B.DAT;1")[0], 64_000))
    image = volume.bytes()
    assert image.count(good) == 1
    return image.replace(good, bad)


def unnamed(entry: int, number: int = 0) -> bytes:
    """The plain volume, of whose master directory this entry names another file, or none. The entry of file 4 is the first, of file 1 the third."""
    return changed(plain_volume().bytes(), 45, 16 * entry, struct.pack("<HH", number, number), has_sum=False)


def sized(size: int, said: int | None = None, count: int | None = None) -> bytes:
    """A sound volume of so many blocks, whose storage control block says its size, or another one, or another count of the bitmap's blocks."""
    maps = -(-size // 4096)
    volume = Volume(size)
    volume.directory(4, "000000.DIR;1", *entries(f"000000.DIR;1 4,4 001002.DIR;1 6,1 {RESERVED}"))
    volume.directory(6, "001002.DIR;1", ("NOTES.TXT;1", 9, 1))
    volume.file(9, "NOTES.TXT;1", variable(b"first"), control=2, size=5)
    control = bytearray(BLOCK)
    control[3] = maps if count is None else count
    struct.pack_into("<2H", control, 4 + 4 * maps, *divmod(size if said is None else said, 65536))
    volume.put(MAP_PLACE, control)
    return volume.bytes()


def tail(size: int, first: bytes = b"") -> bytes:
    """So many bytes that begin so, none of them alike."""
    return first + bytes((7 * place + 3) % 251 for place in range(size - len(first)))


def shared_bitmap() -> bytes:
    """The plain volume, with a file that has the block of the storage bitmap, and a block that is marked free."""
    volume = plain_volume()
    volume.file(14, "BITS.DAT;1", b"x" * BLOCK, places=[60])
    return changed(volume.bytes(free=[47]), 2 + 14, 102, struct.pack("<BBH", 0, 0, MAP_PLACE + 1))


def headless(number: int, used: Sequence[int] = (65, 66)) -> bytes:
    """The volume with two used blocks that none holds, or these, and this number in use without a header."""
    image = bytearray(plain_volume().bytes(used=used))
    image[2 * BLOCK + (number - 1) // 8] |= 1 << (number - 1) % 8
    return bytes(image)


def later_header() -> bytes:
    """The volume with an extension header that no file reaches, and two used blocks besides."""
    volume = plain_volume()
    volume.file(26, "LATER.TXT;1", b"later", places=[70])
    return changed(volume.bytes(used=[65, 66]), 2 + 26, 92, b"\1")


def lost_volume(number: int = 9, **more: object) -> Volume:
    """A volume with [1,2], [1,3] and two files that no directory names, of one name; another of that name is in [1,3]."""
    volume = Volume(**more)
    volume.directory(4, "000000.DIR;1", *entries(f"000000.DIR;1 4,4 001002.DIR;1 6,1 001003.DIR;1 7,1 {RESERVED}"))
    volume.directory(6, "001002.DIR;1", *entries("OTHER.TXT;1 10,1"))
    volume.directory(7, "001003.DIR;1", *entries("NOTES.TXT;4 12,1"))
    volume.file(number, "NOTES.TXT;9", variable(b"first"), control=2, size=5)
    volume.file(11, "NOTES.TXT;2", variable(b"second"), control=2, size=6)
    volume.file(10, "OTHER.TXT;1", variable(b"other"), control=2, size=5)
    volume.file(12, "NOTES.TXT;4", variable(b"found"), control=2, size=5)
    return volume


def full_volume() -> bytes:
    """A volume with a lost file and no free block, with room in no directory."""
    volume = Volume()
    names = [(f"A{place}.;1", 10, 1) for place in range(22)]
    volume.directory(4, "000000.DIR;1", *entries(f"000000.DIR;1 4,4 001003.DIR;1 7,1 {RESERVED}"), *[(f"A{place}.;1", 10, 1) for place in range(26)])
    volume.directory(7, "001003.DIR;1", *names, *[(f"B{place}.;1", 10, 1) for place in range(10)])
    volume.file(9, "NOTES.TXT;9", variable(b"first"), control=2, size=5)
    volume.file(10, "OTHER.TXT;1", variable(b"other"), control=2, size=5)
    return volume.bytes(used=range(volume.next, volume.blocks))


CONTIGUOUS = 0o200  # UC.CON of H.UCHA
DAY = b"29FEB84235959"


def other_volume(blocks: int = 120) -> Volume:
    """Another volume: files of many forms in [1,2] and [A], with three versions of a name, and bytes behind the ends of files."""
    volume = Volume(blocks)
    volume.directory(4, "000000.DIR;1", *entries(f"000000.DIR;1 4,4 001002.DIR;1 6,1 A.DIR;1 7,1 {RESERVED}"))
    volume.directory(6, "001002.DIR;1", *entries("NOTES.TXT;1 9,1 NEW.TXT;3 10,1 NEW.TXT;7 11,1 NEW.TXT;5 12,1 NUMBERS.TXT;2 13,1 ZEROS.DAT;1 14,1 PAST.DAT;1 15,1"))
    volume.directory(7, "A.DIR;1", *entries("ONE.TSK;32767 16,1 EMPTY.DAT;1 17,1"))
    volume.file(9, "NOTES.TXT;1", variable(b"another"), control=2, size=7, owner=0o1003, rights=0xFE80, dates=DAY * 2)
    for number, version in ((10, 3), (11, 7), (12, 5)):
        volume.file(number, f"NEW.TXT;{version}", variable(b"%d" % version), control=2, size=1)
    volume.file(13, "NUMBERS.TXT;2", sequenced((10, b"ten"), (20, b"twenty!")), kind=3, control=2, size=9)
    volume.file(14, "ZEROS.DAT;1", b"z" * 700, attr=bytes(32))
    volume.file(15, "PAST.DAT;1", b"p" * 600, attr=attributes(1, 0, 512, 9, 5000))
    volume.file(16, "ONE.TSK;32767", LARGE, kind=1, size=512, flags=CONTIGUOUS)
    volume.file(17, "EMPTY.DAT;1", kind=1, size=512, dates=DAY * 2)
    return volume


def large_volume() -> bytes:
    """A volume with a file for which another has no room."""
    volume = Volume(200)
    volume.directory(4, "000000.DIR;1", *entries(f"000000.DIR;1 4,4 {RESERVED} SMALL.DAT;1 9,1 LARGE.DAT;1 10,1"))
    volume.file(9, "SMALL.DAT;1", b"s" * 100, kind=1, size=512)
    volume.file(10, "LARGE.DAT;1", b"l" * (90 * BLOCK), kind=1, size=512)
    return volume.bytes()


def without(image: bytes, lbns: Sequence[int]) -> bytes:
    """The image with zeros in these blocks."""
    bare = bytearray(image)
    for lbn in lbns:
        bare[BLOCK * lbn : BLOCK * (lbn + 1)] = bytes(BLOCK)
    return bytes(bare)


def bare_of_index() -> bytes:
    """The plain volume without its home block, its index bitmap and the headers of its reserved files."""
    return without(plain_volume().bytes(), range(8))


def doubly_headed() -> bytes:
    """The same with a second header of NOTES.TXT, of version 2, in block 78."""
    image = bare_of_index()
    return image[: BLOCK * 78] + blocks_of(changed(image, 11, 54, b"\2\0"), 11, BLOCK) + image[BLOCK * 79 :]


def holes_volume() -> Volume:
    """The plain volume with three files of one block more, with holes between their blocks 52, 54 and 56."""
    volume = plain_volume()
    volume.directory(6, "001002.DIR;1", *entries("NOTES.TXT;1 9,1 OTHER.TXT;1 10,1 TASK.TSK;3 12,1 B.;1 14,1 D.;1 16,1 F.;1 18,1"), places=[46])
    for number, letter in ((14, "B"), (16, "D"), (18, "F")):
        volume.file(number, f"{letter}.;1", letter.encode(), places=[38 + number], kind=1, size=512)
    return volume


def many_volume() -> bytes:
    """A volume with files of many forms, owners and protections, in three directories."""
    volume = Volume(120)
    volume.directory(4, "000000.DIR;1", *entries(f"000000.DIR;1 4,4 001002.DIR;1 6,1 A.DIR;1 7,1 {RESERVED} TOP.;1 8,1"))
    volume.directory(6, "001002.DIR;1", *entries("NOTES.TXT;1 9,1 NOTES.TXT;4 10,1 NUMBERS.TXT;2 11,1 ZEROS.DAT;1 12,1"))
    volume.directory(7, "A.DIR;1", *entries("ONE.TSK;32767 13,1 EMPTY.DAT;1 14,1 BYTES.OBJ;1 15,1 A$B.PAS;3 16,1"))
    volume.file(8, "TOP.;1", variable(b"", b"x", b"odd"), control=1, size=3, owner=0o1003)
    volume.file(9, "NOTES.TXT;1", variable(b"first", b"second"), control=2, size=6, owner=0o200 << 8 | 0o40, rights=0xFE80)
    volume.file(10, "NOTES.TXT;4", variable(b"even", b"odd", pad=False), control=2, size=4)
    volume.file(11, "NUMBERS.TXT;2", sequenced((10, b"ten"), (20, b"twenty!")), kind=3, control=2, size=9, rights=0o123456)
    volume.file(12, "ZEROS.DAT;1", b"z" * BLOCK, attr=bytes(32))
    volume.file(13, "ONE.TSK;32767", LARGE, kind=1, size=512, flags=CONTIGUOUS)
    volume.file(14, "EMPTY.DAT;1", kind=1, size=512)
    volume.file(15, "BYTES.OBJ;1", variable(b"\1\0\3\xff", b"\2\0"), size=4)
    volume.file(16, "A$B.PAS;3", variable(b"begin", b"end."), control=2, size=5)
    return volume.bytes()


def linked_volume() -> bytes:
    """A volume with a text that two entries name."""
    volume = Volume()
    volume.directory(4, "000000.DIR;1", *entries(f"000000.DIR;1 4,4 {RESERVED} A.TXT;1 9,1 B.TXT;1 9,1"))
    volume.file(9, "A.TXT;1", variable(b"first"), control=2, size=5, rights=0o177400)
    return volume.bytes()


def spaced_volume() -> bytes:
    """The plain volume with a name that has a space in it, as RSX cannot type it; f11fs shows it as _."""
    volume = plain_volume()
    volume.directory(13, "SUB.DIR;1", ("A_B.PAS;3", 14, 1))
    volume.file(14, "A_B.PAS;3", variable(b"begin", b"end."), control=2, size=5)
    image = volume.bytes()
    at = BLOCK * 45 + 16 * 7  # behind the entries of the master directory
    entry = (13).to_bytes(2, "little") + b"\1\0\0\0" + b"".join(word.to_bytes(2, "little") for word in name("SUB.DIR;1"))
    image = image[:at] + entry + image[at + 16 :]
    return changed(image, 2 + 4, 26, (16 * 8).to_bytes(2, "little"))


# Volumes by the names that rows call them by, besides those that are made together.
NAMED: dict[str, Callable[[], bytes]] = {
    "records": record_volume,
    "named": named_volume,
    "hiding": lambda: named_volume(attr=attributes(1, 0, 16, 1, 0)[:8] + bytes(24)),  # the end mark of [1,2] is 0, and its entry stands behind it
    "labelled": labelled,
    "labelled-spoiled": labelled_and_spoiled,
    "labelled-simh": lambda: labelled() + b"simh" + bytes(508),
    "zeros-40": lambda: bytes(40 * BLOCK),
    "unused": unused_volume,
    "wide": lambda: plain_volume(blocks=200).bytes(),
    "scattered": lambda: plain_volume(blocks=600).bytes(used=range(100, 600, 2)),  # a large file has many pointers
    "pieces": pieces_volume,
    "many": many_volume,
    "linked": linked_volume,
    "spaced": spaced_volume,
    "old": lambda: old_volume().bytes(),
    "shut-notes": lambda: plain_volume(rights=0xFE80, owner=0o200 << 8 | 0o40).bytes(),
    # What chmod, chown and label make of the plain volume: NOTES.TXT is file 9, and [1,2] file 6.
    "protected": lambda: changed(volume_named("plain"), 2 + 9, 10, b"\x00\xec"),
    "denied": lambda: changed(volume_named("plain"), 2 + 9, 10, b"\xff\xff"),
    "owned": lambda: changed(changed(volume_named("plain"), 2 + 9, 8, b"\x08\x07"), 2 + 6, 8, b"\x08\x07"),
    "three-changes": lambda: with_label(b"WORK", changed(volume_named("plain"), 2 + 9, 8, b"\x08\x07\x00\xff")),
    **{f"label-{label}": functools.partial(with_label, label.encode(), plain_volume().bytes()) for label in ("WORK.2", "A", "ABCDEFGHIJ12")},
    # What check finds.
    "marked-0": lambda: marked(0),
    "marked-1": lambda: marked(1),
    "marked-2": lambda: marked(2),
    "spoiled-twins": spoiled_twins,
    "used-runs": lambda: plain_volume().bytes(used=[60, 65, 66, 68, 77, 78, 79]),
    "used-over-256": lambda: plain_volume(blocks=300).bytes(used=range(250, 262)),
    "marked": lambda: plain_volume(flags=0o200 << 8).bytes(),
    "locked": lambda: plain_volume(flags=0o100).bytes(),
    "longer": lambda: plain_volume(size=4).bytes(),
    "numbers": lambda: changed(plain_volume().bytes(), 2, 510, b"\x01\x80", has_sum=False),
    "other-characteristics": lambda: plain_volume(flags=0x7FBF).bytes(),
    "unnamed-index": lambda: unnamed(2),
    "unnamed-bitmap": lambda: unnamed(3, 5),
    "unnamed-master": lambda: unnamed(0, 3),
    # Images of other lengths than their volume.
    "sized-80": lambda: sized(80),
    # What repair mends, or leaves.
    "free-system": lambda: plain_volume().bytes(free=[0, 1, 2, 44, 45, 46, 47, 49]),
    "spoiled-1": lambda: changed(plain_volume().bytes(free=[47]), 2 + 1, 200, b"\x11", has_sum=False),
    "spoiled-2": lambda: changed(plain_volume().bytes(free=[47]), 2 + 2, 200, b"\x11", has_sum=False),
    "homeless-used": lambda: changed(plain_volume().bytes(used=[65, 66]), 1, 0, b"\2", has_sum=False),
    "shared-bitmap": shared_bitmap,
    "home-places": lambda: plain_volume(blocks=600).bytes(used=[0, 1, 250, *range(254, 258), 511, 512, 513, 599]),
    "home-places-freed": lambda: plain_volume(blocks=600).bytes(used=[256, 512]),
    "headless-used": lambda: headless(25),
    "headless-4096": lambda: headless(4096),
    "headless-25": lambda: headless(25, ()),
    "later-used": later_header,
    "lost-two": lambda: lost_volume().bytes(),
    "lost-last": lambda: changed(lost_volume().bytes(), 47, 14, struct.pack("<H", 32767), has_sum=False),  # the name in [1,3] has the last version
    "lost-full": full_volume,
    "two-kinds": lambda: plain_volume().bytes(free=[47], used=[65, 66]),
    "chainless": lambda: changed(plain_volume().bytes(), 2 + 9, 94, b"\x1b\0\1\0"),
    "holes": lambda: holes_volume().bytes(),
    # What a scan gets files of.
    "scan-headless": bare_of_index,
    "scan-no-index": lambda: without(plain_volume().bytes(), [3]),
    "scan-rubbish": lambda: os.urandom(BLOCK * 200),
    "scan-doubled": doubly_headed,
    "scan-same-name": lambda: changed(bare_of_index(), 2 + 10, 46, struct.pack("<5H", *name("NOTES.TXT;1"))),
    "scan-chainless": lambda: changed(bare_of_index(), 11, 94, b"\x1e\0\1\0"),
    "scan-past": lambda: changed(bare_of_index(), 11, 104, b"\xc8\0"),
    "scan-bare": lambda: Volume().bytes(),
    # What cp --from copies of.
    "between": lambda: other_volume().bytes(),
    "between-chainless": lambda: changed(other_volume().bytes(), 2 + 10, 94, b"\x1e\0\1\0"),
    "between-cut": lambda: other_volume().bytes()[:-7],
    "between-holes": lambda: plain_volume().bytes(used=range(53, 80, 3)),
    "between-large": large_volume,
    # Bytes that are no volume.
    "zeros-100": lambda: bytes(100 * BLOCK),
    "looks-gzip": lambda: b"\x1f\x8b\x08" + bytes(600),
    "looks-zip": lambda: b"PK\x03\x04" + bytes(508),
    "looks-vhd": lambda: b"conectix" + bytes(1016),
    "looks-xz": lambda: b"\xfd7zXZ\0" + bytes(7),
    "looks-bzip2": lambda: b"BZh91AY" + bytes(505),
    "looks-zstd": lambda: b"\x28\xb5\x2f\xfd" + bytes(9),
    "looks-7z": lambda: b"7z\xbc\xaf\x27\x1c" + bytes(506),
    "looks-tar": lambda: bytes(257) + b"ustar  " + bytes(760),
    "looks-imd": lambda: b"IMD 1.18: 01/01/2000\r\n" + bytes(5),
    "looks-teledisk": lambda: b"TD\0\0" + bytes(9),
    "looks-rt11": lambda: bytes(1008) + b"DECRT11A    " + bytes(4),
    "looks-ods2": lambda: bytes(1008) + b"DECFILE11B  " + bytes(4),
    "looks-rx01": lambda: bytes(256256),
    "looks-rx02": lambda: bytes(512512),
    "looks-rx50": lambda: bytes(409600),
    "sized-4800": lambda: sized(4800) + tail(72 * BLOCK),
    "sized-simh": lambda: sized(80) + tail(BLOCK, b"simh"),
    "sized-vhd": lambda: sized(80) + tail(BLOCK, b"conectix"),
    "sized-odd": lambda: sized(80) + tail(7),
    "sized-short": lambda: sized(80)[: BLOCK * 70],
    # NOTES.TXT is in block 47.
    "sized-lacking": lambda: sized(80)[: BLOCK * 47],
    "sized-odd-count": lambda: sized(80, count=2) + tail(7),
    "sized-short-count": lambda: sized(80, count=2)[: BLOCK * 70],
    "sized-low": lambda: sized(80, said=47) + tail(BLOCK, b"simh"),
}


@functools.cache
def made_once() -> dict[str, bytes]:
    """The images that are made together."""
    return {**images(), **more_images(), **repair_images(), **spoiled_images()}


@functools.cache
def volume_named(name: str) -> bytes | None:
    """The volume that rows call by this name, if one is."""
    return NAMED[name]() if name in NAMED else made_once().get(name)
