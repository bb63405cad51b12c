"""New volumes: the attributes of INDEXF.SYS and BITMAP.SYS, the label, and the storage control block, read byte by byte from the structure's description."""
import shutil
import struct
import subprocess

from fs_room import Disk, equal, for_each, on

BLOCK = 512
SIZES = (40, 4096, 4097, 20480)  # larger ones are proved, and take a small machine long

CONTIGUOUS = 0o200
RSX_NAMES = {1: "INDEXF.SYS", 2: "BITMAP.SYS", 3: "BADBLK.SYS", 4: "000000.DIR", 5: "CORIMG.SYS"}


class Made:
    """A new volume, of which a block is read where it is wanted."""

    def __init__(self, room: Disk, *words: str) -> None:
        room.assertEqual(room.f11fs("disk", "init", *words), (0, b"", b""), f"init {words}")
        self.path = room.image
        self.home = self.words(1)

    def block(self, lbn: int) -> bytes:
        with open(self.path, "rb") as image:
            image.seek(BLOCK * lbn)
            return image.read(BLOCK)

    def words(self, lbn: int) -> tuple[int, ...]:
        return struct.unpack("<256H", self.block(lbn))

    def header(self, number: int) -> bytes:
        """The header of one of the first 16 files, whose sum is right: H.IBLB, H.IBSZ and the number say where it stands."""
        lbn = (self.home[1] << 16 | self.home[2]) + self.home[0] + number - 1
        words = self.words(lbn)
        equal(words[255], sum(words[:255]) % 65536, f"the sum of header {number}")
        return self.block(lbn)

    def places(self, number: int) -> list[int]:
        """The blocks that the pointers of a header name, in order."""
        head = self.header(number)
        area = 2 * head[1]
        found = []
        for at in range(area + 10, area + 10 + 2 * head[area + 8], 4):
            high, count, low = struct.unpack_from("<BBH", head, at)
            first = high << 16 | low
            found += range(first, first + count + 1)
        return found


def attributes(blocks: int) -> bytes:
    """F.RTYP 1, F.RATT 0, F.RSIZ 512, F.HIBK the blocks, F.EFBK one more, F.FFBY 0: words of 32 bits have the high word first."""
    return struct.pack("<BBH5H", 1, 0, 512, blocks >> 16, blocks & 0xFFFF, (blocks + 1) >> 16, (blocks + 1) & 0xFFFF, 0).ljust(32, b"\0")


def size_by(control: bytes, bitmap_blocks: int) -> int:
    """The size that the storage control block says, where its byte 3 is the low byte of the count of bitmap blocks."""
    equal(control[3], bitmap_blocks % 256, "byte 3 of the storage control block")
    high, low = struct.unpack_from("<HH", control, 4 + 4 * bitmap_blocks if bitmap_blocks <= 126 else 4)
    return high << 16 | low


def reserved_files(room: Disk, blocks: int) -> None:
    """A volume of so many blocks."""
    made = Made(room, str(blocks))
    room.assertEqual(room.image.stat().st_size, BLOCK * blocks, "the length of the image")
    index, bitmap = made.places(1), made.places(2)
    room.assertEqual(made.header(1)[14:46], attributes(len(index)), "the attributes of INDEXF.SYS")
    room.assertEqual(made.header(2)[14:46], attributes(len(bitmap)), "the attributes of BITMAP.SYS")
    room.assertEqual({number: made.header(number)[12] for number in RSX_NAMES}, {1: 0, 2: CONTIGUOUS, 3: 0, 4: 0, 5: 0}, "the user characteristics")
    room.assertEqual(bitmap, list(range(bitmap[0], bitmap[0] + len(bitmap))), "the blocks of BITMAP.SYS, which follow one another")
    room.assertEqual(len(bitmap), 1 + (blocks + 4095) // 4096, "the blocks of BITMAP.SYS")
    room.assertEqual(size_by(made.block(bitmap[0]), len(bitmap) - 1), blocks, "the size by the storage control block")
    if blocks < 100_000:
        room.assertEqual(room.f11fs("disk", "check", "--all"), (0, b"sound\n", b""), "check")
        for number in (1, 2):  # the end lies behind the last block
            room.assertEqual(len(room.f11fs("disk", "cat", "-b", f"#{number},{number}")[1]), BLOCK * len(made.places(number)),
                    f"the bytes of {RSX_NAMES[number]}")


def labelled(room: Disk, label: str | None) -> None:
    """A volume of this label."""
    made = Made(room, "20480", "--label", label)
    text = label.upper().encode()
    home = made.block(1)
    room.assertEqual(home[14:26], text.ljust(12, b"\0"), "H.VNAM, which zero bytes fill")
    room.assertEqual(home[472:484], text.ljust(12), "the label at byte 472, which spaces fill")
    room.assertEqual(home[26:30], bytes(4), "what stands behind the label")
    room.assertEqual(made.home[29], sum(made.home[:29]) % 65536, "H.CHK1")
    room.assertEqual(made.home[255], sum(made.home[:255]) % 65536, "H.CHK2")
    room.assertEqual(room.f11fs("disk", "check", "--all"), (0, b"sound\n", b""), "check")
    if shutil.which("file"):
        said = subprocess.run(["file", "-b", "disk"], cwd=room.folder, capture_output=True, timeout=60).stdout.decode()
        assert "Files-11" in said and f"'{label.upper():<12}'" in said, f"file says: {said}"


class Init(Disk):
    @on(None)
    def test_labels(self) -> None:
        for label in ("W", "work.1", "TWELVE.OF.12"):
            labelled(self, label)
            self.image.unlink()


for_each(Init, "reserved_files_of_a_volume_of_blocks", SIZES, reserved_files, lambda size: lambda: None)
