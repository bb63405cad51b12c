"""`rescue --scan`: files whose first headers still stand, wherever that is, got by these alone."""
import struct
from collections.abc import Iterable
from typing import Any

from fs_image import BLOCK, name
from fs_room import Disk, on
from fs_volumes import without
from make_image import LEVEL, POINTERS, PROTECTION, put_sum


def lines(output: bytes) -> list[str]:
    return output.decode().splitlines()


def is_header(image: bytes, lbn: int) -> bool:
    """Whether the block has the sum and the level of a header, and a number."""
    words = struct.unpack_from("<256H", image, BLOCK * lbn)
    return words[255] == sum(words[:255]) & 0xFFFF and words[3] == LEVEL and words[1] != 0


def with_headers(blocks: int, numbers: Iterable[int], runs: int, count: int) -> bytes:
    """An image that has nothing but first headers, from LBN 300 on, each of which names so many runs of blocks from LBN 0 on."""
    image = bytearray(BLOCK * blocks)
    for place, number in enumerate(numbers):
        block = bytearray(BLOCK)
        struct.pack_into("<BBHHHHHH", block, 0, 23, 46, number, 1, LEVEL, 0o401, PROTECTION, 0)
        struct.pack_into("<5H", block, 46, *name(f"F{number}.DAT;1"))
        struct.pack_into("<BBHHBBBB", block, 92, 0, 0, 0, 0, 1, 3, 2 * runs, 2 * POINTERS)
        for run in range(runs):
            struct.pack_into("<BBH", block, 102 + 4 * run, 0, count - 1, 0)
        put_sum(block, 255)
        image[BLOCK * (300 + place) : BLOCK * (301 + place)] = block
    return bytes(image)


def told(room: Disk, *words: str, **more: Any) -> tuple[int, list[str], list[str]]:
    """The status of a scan that copies nothing, and what it would copy and leave."""
    status, output, _ = room.f11fs("-n", "disk", "rescue", "--scan", "new", *words, **more)
    found = lines(output)[1:]
    return status, [line for line in found if line.startswith("rescue ")], [line for line in found if line.startswith("left: ")]


class Scan(Disk):
    @on(None)
    def test_an_rk05(self) -> None:
        self.f11fs("disk", "init", "RK05", "--files", "300")
        (self.folder / "host").write_bytes(b"x" * 700)
        (self.folder / "todo").write_text("mkdir [1,2]\n" + "".join(f"put -b host [1,2]F{number}.DAT\n" for number in range(200)))
        self.assertEqual(self.f11fs("disk", "-f", "todo")[0], 0, "the files")
        before = self.image.read_bytes()
        there = {struct.unpack_from("<H", before, BLOCK * lbn + 2)[0]: lbn for lbn in range(len(before) // BLOCK) if is_header(before, lbn)}
        self.image.write_bytes(without(before, range(100)))
        # file number n is the directory where n is 6, and F(n - 7) behind it
        wanted = {f"F{number - 7}.DAT;1" for number, lbn in there.items() if number > 6 and lbn > 99}
        assert 0 < len(wanted) < 200, f"{len(wanted)} headers stand behind the zeros"
        status, output, _ = self.f11fs("disk", "rescue", "--scan", "out")
        self.assertEqual((status, set(lines(output)[1:])), (0, wanted), "rescue --scan")
        self.assertEqual({path.name: path.read_bytes() for path in (self.folder / "out").iterdir()}, {file: b"x" * 700 for file in wanted})

    @on(lambda: with_headers(2000, range(6, 1506), 4, 250))
    def test_many_headers_that_name_the_same_blocks(self) -> None:
        status, saved, left = told(self)
        # each has a header and 1,000 blocks, and 64 times the image are 128,000
        self.assertEqual((status, len(saved), len(left)), (7, 127, 1500 - 127), "rescue --scan")
        self.assertEqual(left[0], "left: F133.DAT;1 #133,1 @427: the files copied before it have 64 times the blocks of the image", "the first that is left")

    @on(lambda: with_headers(1000, (6, 7), 5, 200))
    def test_a_file_larger_than_the_image(self) -> None:
        status, saved, left = told(self)
        why = "it has more headers and blocks than the image has blocks"
        self.assertEqual((status, saved, left), (7, [], [f"left: F{number}.DAT;1 #{number},1 @{294 + number}: {why}" for number in (6, 7)]), "rescue --scan")
