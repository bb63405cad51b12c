"""Floppies in physical order: what is read of them, and which bytes change. The order is a second table here: a track is gone round in steps of two
sectors, and over a sector that is taken."""
import re
import struct
from collections.abc import Callable, Iterator

from fs_image import BLOCK, MAP_PLACE, Volume, variable
from fs_room import STAMP, Disk, for_each, on

# Of each order: the bytes of a sector, the tracks, the sectors of a track, how far the next track turns, and whether track 0 is the volume's last.
ORDERS = {"rx01": (128, 77, 26, 6, False), "rx02": (256, 77, 26, 6, False), "rx50": (512, 80, 10, 2, True)}
NOTES = "1,2/NOTES.TXT"

BESIDE = b"\xa5"


def places(order: str) -> Iterator[tuple[int, int]]:
    """Where the sectors of the volume stand, one behind another: the track, and the place on it."""
    _, tracks, count, turn, wraps = ORDERS[order]
    for nth, track in enumerate([*range(1, tracks), *([0] if wraps else [])]):
        at, taken = turn * nth % count, set()
        for _ in range(count):
            if at in taken:
                at = (at + 1) % count
            taken.add(at)
            yield track, at
            at = (at + 2) % count


def floppy(order: str, volume: bytes, old: bytes | None = None) -> bytes:
    """The floppy with this volume, whose other bytes are those of an old one."""
    size, tracks, count, _, _ = ORDERS[order]
    made = bytearray(BESIDE * (size * tracks * count) if old is None else old)
    for nth, (track, at) in enumerate(places(order)):
        first = size * (count * track + at)
        made[first : first + size] = volume[size * nth : size * (nth + 1)]
    return bytes(made)


def volume_of(order: str, data: bytes) -> bytes:
    """The volume of a floppy."""
    size, _, count, _, _ = ORDERS[order]
    return b"".join(data[size * (count * track + at) :][:size] for track, at in places(order))


def blocks_of(order: str) -> int:
    return ORDERS[order][0] * sum(1 for _ in places(order)) // BLOCK


def volume(order: str) -> bytes:
    """A sound volume of as many blocks, with a file in its last ones, which say where they are."""
    blocks = blocks_of(order)
    made = Volume(blocks)
    made.directory(4, "000000.DIR;1", ("000000.DIR;1", 4, 4), ("001002.DIR;1", 6, 1), ("INDEXF.SYS;1", 1, 1), ("BITMAP.SYS;1", 2, 2),
               ("BADBLK.SYS;1", 3, 3), ("CORIMG.SYS;1", 5, 5))
    made.directory(6, "001002.DIR;1", ("NOTES.TXT;1", 9, 1), ("LAST.DAT;1", 10, 1))
    made.file(9, "NOTES.TXT;1", variable(b"first", b"second"), control=2, size=6)
    last = range(blocks - 100, blocks)
    made.file(10, "LAST.DAT;1", b"".join(struct.pack("<I", lbn) * 128 for lbn in last), places=last, kind=1)
    control = bytearray(BLOCK)
    control[3] = 1
    struct.pack_into("<2H", control, 8, *divmod(blocks, 65536))
    made.put(MAP_PLACE, control)
    return made.bytes()


def on_floppy(order: str) -> Callable[[], bytes]:
    return lambda: floppy(order, volume(order))

READS = (["ls", "-l", "1,2/"], ["find"], ["df"], ["du"], ["stat", NOTES], ["cat", NOTES], ["cat", "-b", "1,2/LAST.DAT"], ["check"], ["check", "--all"],
         ["ls", "--json"])


def reads_as_plain(room: Disk, order: str) -> None:
    (room.folder / "plain").write_bytes(volume(order))
    for words in READS:
        wanted = room.f11fs("plain", *words)
        for said in ([], ["--order", order]):
            found = room.f11fs(*said, "disk", *words)
            room.assertEqual(found, (wanted[0], *(text.replace(b"plain", b"disk") for text in wanted[1:])), f"{said} {words}")
    room.assertEqual(room.f11fs("disk", "cmp", "plain"), (0, b"", b""), "cmp with the plain image")
    room.assertEqual(room.f11fs("plain", "cmp", "disk"), (0, b"", b""), "cmp of the plain image")
    room.assertEqual(room.f11fs("--order", order, "disk", "rescue", "out")[0], 0, "rescue")
    room.assertEqual((room.folder / "out" / "1,2" / "NOTES.TXT;1").read_bytes(), variable(b"first", b"second"), "a rescued file")
    assert room.is_untouched(), "a read changed the image"


def has_new_file(room: Disk, order: str, name: str, what: str) -> None:
    """The floppy has the new file, and its other bytes are those of the old one."""
    data = (room.folder / name).read_bytes()
    (room.folder / "alone").write_bytes(volume_of(order, data))
    room.assertEqual(room.volume("alone").records("[1,2]MORE.TXT;1"), [b"more"], f"the new file, {what}")
    room.assertEqual(data, floppy(order, volume_of(order, data), room.before), f"the bytes beside the volume, {what}")
    room.assertEqual(room.f11fs(name, "cat", "1,2/MORE.TXT")[1], b"more\n", f"cat, {what}")


def changes_in_place(room: Disk, order: str) -> None:
    (room.folder / "more.txt").write_bytes(b"more\n")
    (room.folder / "commands").write_bytes(b"put more.txt 1,2/\n")
    room.does("-n", "disk", "put", "more.txt", "1,2/")
    assert room.is_untouched(), "put -n changed the image"
    room.does("-o", "copy", "disk", "put", "more.txt", "1,2/")
    assert room.is_untouched(), "put -o changed the image"
    has_new_file(room, order, "copy", "-o")
    room.does("--order", order, "-o", "other", "-f", "commands", "disk")
    has_new_file(room, order, "other", "-f")
    room.does("--backup", "disk", "put", "more.txt", "1,2/")
    has_new_file(room, order, "disk", "put")
    room.assertEqual((room.folder / "disk~").read_bytes(), room.before, "the backup")
    room.does("disk", "rm", "1,2/MORE.TXT;1")
    room.assertEqual(room.f11fs("disk", "check"), (0, b"sound\n", b""), "check")


def other_orders(room: Disk, order: str) -> None:
    """Another order than that of the floppy is refused: a size by status 2, and plain blocks by their missing home block."""
    (room.folder / "more.txt").write_bytes(b"more\n")
    for words in (["ls"], ["check"], ["rescue", "out"], ["put", "more.txt", "1,2/"]):
        for other in ORDERS:
            if other != order:
                status, out, errors = room.f11fs("--order", other, "disk", *words)
                room.assertEqual((status, out, errors[:28]), (2, b"", b"f11fs: disk: OtherSize: a flo"[:28]), f"--order {other} {words}")
    for words in (["ls"], ["put", "more.txt", "1,2/"]):
        status, out, errors = room.f11fs("--order", "plain", "disk", *words)
        room.assertEqual((status, out), (1, b""), f"--order plain {words}")
        assert errors.startswith(b"f11fs: disk: NotWholeBlocks" if order == "rx01" else b"f11fs: disk: NoHome"), errors
        assert f"--order {order}".encode() in errors, errors
    assert room.is_untouched(), "a refused command changed the image"


def init_makes_one(room: Disk, order: str) -> None:
    blocks = str(blocks_of(order))
    words = ["--stamp", STAMP, "--order", order]
    room.assertEqual(room.f11fs(*words, "disk", "init", "100")[0], 2, "init of another size")
    assert not room.image.exists(), "a refused init made an image"
    room.does(*words, "disk", "init", blocks)
    room.does("--stamp", STAMP, "plain", "init", blocks)
    plain = (room.folder / "plain").read_bytes()
    size, tracks, count, _, _ = ORDERS[order]
    room.assertEqual(room.image.read_bytes(), floppy(order, plain, bytes(size * tracks * count)), "the new floppy")
    room.assertEqual(room.f11fs("disk", "check", "--all"), (0, b"sound\n", b""), "check")
    # simh attaches the floppies of an RX01 and an RX02 in this order, and those of an RX50 block by block.
    of_device = plain if order == "rx50" else room.image.read_bytes()
    for made, words, content in (("small", [order], of_device), ("large", [order.upper()], of_device), ("blocks", ["--order", "plain", order], plain)):
        room.does("--stamp", STAMP, *words[:-1], made, "init", words[-1])
        room.assertEqual((room.folder / made).read_bytes(), content, f"init {words}")


def converts(room: Disk, order: str) -> None:
    """The volume comes out as blocks and goes back into a floppy. A first track that is not empty is left out only where that is said."""
    has_track, plain = not ORDERS[order][4], volume(order)
    line = re.compile(rb"f11fs: disk: its first track is not empty[^\n]*--blocks-only[^\n]*\n")
    if has_track:
        room.refuses(5, line, "disk", "convert", "blocks")
    room.does("disk", "convert", *["--blocks-only"] * has_track, "blocks")
    room.assertEqual((room.folder / "blocks").read_bytes(), plain, "the blocks")
    room.refuses(3, re.compile(rb"f11fs: blocks: [^\n]+\n"), "disk", "convert", "--blocks-only", "blocks")
    room.does("--order", "plain", "blocks", "convert", "--to", order, "back")
    size, tracks, count, _, _ = ORDERS[order]
    room.assertEqual((room.folder / "back").read_bytes(), floppy(order, plain, bytes(size * tracks * count)), "the floppy")
    room.does("--order", order, "back", "convert", "--to", "plain", "again")
    room.assertEqual((room.folder / "again").read_bytes(), plain, "the blocks of the floppy")
    (room.folder / "long").write_bytes(plain + b"footer")
    room.does("--blocks", str(blocks_of(order)), "--order", "plain", "long", "convert", "more")
    room.assertEqual((room.folder / "more").read_bytes(), plain + b"footer", "what stands behind the volume")
    room.refuses(3, re.compile(rb"f11fs: other: [^\n]+\n"), "--blocks", str(blocks_of(order)), "--order", "plain", "long", "convert", "--to", order, "other")
    room.does("--blocks", str(blocks_of(order)), "--order", "plain", "long", "convert", "--to", order, "--blocks-only", "other")
    assert room.is_untouched(), "convert changed the image"


class Orders(Disk):
    @on(lambda: volume("rx50"))
    def test_an_rx50_of_plain_blocks_stays_plain(self) -> None:
        (self.folder / "more.txt").write_bytes(b"more\n")
        self.assertEqual(self.f11fs("disk", "cat", NOTES), (0, b"first\nsecond\n", b""), "cat")
        self.does("disk", "put", "more.txt", "1,2/")
        self.assertEqual(self.volume().records("[1,2]MORE.TXT;1"), [b"more"], "the new file")
        status, out, errors = self.f11fs("--order", "rx50", "disk", "ls")
        self.assertEqual((status, out), (1, b""), "ls in physical order")
        assert b"NoHome" in errors, errors

    @on(on_floppy("rx01"))
    def test_a_volume_larger_than_its_floppy_is_not_saved(self) -> None:
        (self.folder / "more.txt").write_bytes(b"more\n")
        words = ["--blocks", "600", "--order", "rx01", "disk", "put", "more.txt", "1,2/"]
        self.assertEqual(self.f11fs(*words)[0], 5, "put")
        self.assertEqual(self.f11fs("--force", *words)[0], 3, "put --force")
        assert self.is_untouched(), "the image was changed"


for_each(Orders, "is_read_as_the_plain_image", ORDERS, reads_as_plain, on_floppy)
for_each(Orders, "is_changed_in_its_places", ORDERS, changes_in_place, on_floppy)
for_each(Orders, "is_refused_in_another_order", ORDERS, other_orders, on_floppy)
for_each(Orders, "is_converted", ORDERS, converts, on_floppy)
for_each(Orders, "is_made_by_init", ORDERS, init_makes_one, lambda order: lambda: None)
