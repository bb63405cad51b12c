"""repair beside what tests/fs_repairs tries by chance: images that a mount refuses, other damage, room that is wanting, and the host."""
import os
import signal
import struct

from fs_image import BLOCK, changed, entries, name
from fs_loose import Loose, text_of
from fs_room import OLD, STAMP, Disk, limited, on
from fs_volumes import plain_volume, volume_named

NOT_DONE = "names, lost, free: not done: the image is refused: "


def repairs(room: Disk, *words: str, status: int = 0, lines: str = "") -> None:
    """repair with these words prints these lines, also with -n, which changes nothing; done again it does nothing."""
    before = room.image.read_bytes()
    os.utime(room.image, (OLD, OLD))
    room.assertEqual(room.f11fs("-n", "--stamp", STAMP, "disk", "repair", *words), (status, lines.encode(), b""), "repair -n")
    assert room.image.read_bytes() == before and room.image.stat().st_mtime == OLD, "-n touched the image"
    room.assertEqual(room.f11fs("--stamp", STAMP, "disk", "repair", *words), (status, lines.encode(), b""), "repair")
    after = room.image.read_bytes()
    os.utime(room.image, (OLD, OLD))
    left = "".join(line for line in lines.splitlines(True) if ": not done: " in line or line.endswith("stays lost\n"))
    room.assertEqual(room.f11fs("--stamp", STAMP, "disk", "repair", *words), (status, left.encode(), b""), "repair again")
    assert room.image.read_bytes() == after and room.image.stat().st_mtime == OLD, "the second run touched the image"


def refused(room: Disk, status: int, why: str, *words: str, **more: object) -> None:
    """repair with these words is refused, one line says why, and nothing has changed."""
    names = room.names()
    ended, out, err = room.f11fs("--stamp", STAMP, *words, **more)
    room.assertEqual((ended, out), (status, b""), f"{words}: {err!r}")
    assert why in err.decode() and err.count(b"\n") == 1, err
    assert room.is_untouched(), "the image was touched"
    room.assertEqual(room.names(), names, "files of the host")


def dangling_volume() -> bytes:
    """A volume with entries that name no file: of another sequence number, of a number that is free, past all, of an extension header; and one behind an end."""
    volume = plain_volume()
    volume.directory(13, "SUB.DIR;1", ("A.TXT;1", 9, 2), ("B.TXT;1", 39, 1), ("C.TXT;1", 9, 1), ("D.TXT;3", 65535, 1), ("E.TXT;1", 27, 1), ("F.TXT;1", 40, 1))
    volume.file(27, "NOTES.TXT;1", b"more", places=[70])
    image = changed(changed(volume.bytes(), 2 + 27, 92, b"\1"), 2 + 9, 94, struct.pack("<HH", 27, 1))
    return changed(image, 2 + 13, 26, struct.pack("<H", 5 * 16))


def doubled(*versions: int, extra: str = "") -> bytes:
    """A volume with a directory of these versions of a name, of files 9, 10 and 12 by turns."""
    volume = plain_volume()
    lines = [(f"A.TXT;{version}", (9, 10, 12)[at % 3], 1) for at, version in enumerate(versions)]
    volume.directory(13, "SUB.DIR;1", *lines, *entries(extra))
    image, place = volume.bytes(), BLOCK * 45 + 16 * 7  # behind the entries of the master directory
    entry = struct.pack("<8H", 13, 1, 0, *name("SUB.DIR;1"))
    return changed(image[:place] + entry + image[place + 16 :], 2 + 4, 26, struct.pack("<H", 16 * 8))


def names_in(room: Disk) -> list[tuple[int, str]]:
    """The numbers and the names in the directory, in order."""
    return [(number, text_of(words)) for number, _, words in Loose(room.image.read_bytes()).directories[13]]


def crowded() -> bytes:
    """A volume with more faults than a check lists, behind which a directory has two equal names."""
    volume = plain_volume(blocks=4000)
    for number in (14, 15, 16):
        volume.file(number, f"BIG.DAT;{number}", None, places=range(60, 3960), kind=1)
    volume.directory(20, "SUB.DIR;1", ("A.TXT;1", 9, 1), ("A.TXT;1", 10, 1))
    return volume.bytes(free=range(60, 3960))


class Repair(Disk):
    @on(dangling_volume)
    def test_names_of_no_file_go(self) -> None:
        lines = [f"names: directory 13 has {text}, which names {file}, and that is no file\n" for text, file in (("A.TXT;1", "9,2"), ("B.TXT;1", "39,1"), ("D.TXT;3", "65535,1"), ("E.TXT;1", "27,1"))]
        before = Loose(self.before)
        repairs(self, "names", lines="".join(lines))
        after = Loose(self.image.read_bytes())
        self.assertEqual(after.directories[13], [line for line in before.directories[13] if line[2] == tuple(name("C.TXT;1"))], "names of the directory")
        place = (before.files[13].blocks or ())[0]
        self.assertEqual([lbn for lbn in range(80) if after.block(lbn) != before.block(lbn)], [place], "blocks that changed")
        self.assertEqual(after.block(place)[80:], before.block(place)[80:], "what stands behind the end")

    @on(lambda: volume_named("two-kinds"))
    def test_no_room_on_the_host(self) -> None:
        for size in (0, 1, 8192, BLOCK * 80 - 1):
            refused(self, 3, "disk: writing failed: it is too large", "disk", "repair", "all", preexec_fn=limited(size, True))
        self.assertEqual(self.f11fs("disk", "repair", "all")[0], 0, "repair with self")
        self.assertEqual((self.image.read_bytes(), self.names()), (plain_volume().bytes(), ["disk"]), "the image")

    @on(lambda: volume_named("two-kinds"))
    def test_ended_by_force_while_it_writes(self) -> None:
        status, out, err = self.f11fs("disk", "repair", "all", preexec_fn=limited(8192, False))
        self.assertEqual((status, out, err), (-signal.SIGXFSZ, b"", b""), "the end by force")
        assert self.is_untouched(), "the image was touched"
        self.assertEqual(self.f11fs("disk", "repair", "all")[0], 0, "repair behind it")
        self.assertEqual((self.image.read_bytes(), self.names()), (plain_volume().bytes(), ["disk"]), "the image")

    @on(lambda: doubled(1, 3, 1, 3, 1, extra="B.TXT;1 9,1"))
    def test_the_later_of_equal_names_gets_the_next_version(self) -> None:
        before = Loose(self.before)
        self.assertEqual(self.f11fs("disk", "mkdir", "NEW")[0], 1, "a change of the refused image")
        repairs(self, "double", lines="double: directory 13 had two entries with one name and version\n")
        self.assertEqual(names_in(self), [(9, "A.TXT;1"), (10, "A.TXT;3"), (12, "A.TXT;4"), (9, "A.TXT;5"), (10, "A.TXT;6"), (9, "B.TXT;1")], "names")
        after = Loose(self.image.read_bytes())
        self.assertEqual([lbn for lbn in range(80) if after.block(lbn) != before.block(lbn)], [*(before.files[13].blocks or ())], "blocks that changed")
        self.volume()
        self.is_sound()

    @on(crowded)
    def test_equal_names_behind_many_faults(self) -> None:
        status, out, err = self.f11fs("disk", "repair", "double")
        assert out.startswith(b"double: the image has ") and out.endswith(b" more faults than one run repairs; run repair again\n"), out
        self.assertEqual((status, err, out.count(b"\n"), self.is_untouched()), (7, b"", 1, True), "repair double")
        lines = "used: blocks 60 to 3959 were marked as free\ndouble: directory 20 had two entries with one name and version\n"
        repairs(self, "used", "double", lines=lines)
        self.assertEqual(Loose(self.image.read_bytes()).faults(), {"DoublyUsed"}, "the faults that are left")

    @on(lambda: doubled(32767, 2, 32767))
    def test_no_version_is_left_for_an_equal_name(self) -> None:
        status, out, err = self.f11fs("disk", "repair", "double")
        self.assertEqual((status, err, out.startswith(b"double: directory 13: not done: "), out.count(b"\n"), self.is_untouched()), (7, b"", True, 1, True), f"repair: {out!r}")
        status, out, _ = self.f11fs("--stamp", STAMP, "disk", "repair", "all")
        self.assertEqual((status, out.count(b"\n"), f"{NOT_DONE}DuplicateName 13" in out.decode(), self.is_untouched()), (7, 2, True, True), "repair all")

    @on(lambda: doubled(1, 1, extra="LOST.TXT;1 9,2"))
    def test_equal_names_and_others(self) -> None:
        lines = "double: directory 13 had two entries with one name and version\nnames: directory 13 has LOST.TXT;1, which names 9,2, and that is no file\n"
        repairs(self, "all", lines=lines)
        self.assertEqual(names_in(self), [(9, "A.TXT;1"), (10, "A.TXT;2")], "names")
