"""untar: archives of GNU tar, long names, sparse files, old dates and bad headers. rows/edges/untar.rows has the others."""
import io
import os
import shutil
import subprocess
import tarfile
import time
from typing import Any

from fs_image import BLOCK, variable
from fs_reader import Reader
from fs_room import STAMP, Disk

TEXT, BYTES = b"one\n\nthree\n", bytes(range(256)) * 3

FORMATS = {"ustar": tarfile.USTAR_FORMAT, "gnu": tarfile.GNU_FORMAT, "pax": tarfile.PAX_FORMAT}


def member(path: str, data: bytes = b"", kind: bytes = tarfile.REGTYPE, records: dict[str, str] | None = None, **more: Any) -> tuple[tarfile.TarInfo, bytes]:
    """A member of an archive."""
    info = tarfile.TarInfo(path)
    info.size, info.type, info.mtime = len(data), kind, 500_000_000
    info.pax_headers = records or {}
    for name, value in more.items():
        setattr(info, name, value)
    return info, data


def archive(*members: tuple[tarfile.TarInfo, bytes], form: int = tarfile.PAX_FORMAT, headers: dict[str, str] | None = None) -> bytes:
    """An archive of these members, with these records of all."""
    stream = io.BytesIO()
    with tarfile.open(fileobj=stream, mode="w", format=form, pax_headers=headers) as out:
        for info, data in members:
            out.addfile(info, io.BytesIO(data))
    return stream.getvalue()


def with_field(data: bytes, at: int, field: bytes) -> bytes:
    """An archive whose first header has these bytes at a place, and their sum."""
    header = data[:at] + field + data[at + len(field) : BLOCK]
    total = sum(header[:148]) + 8 * 32 + sum(header[156:])
    return header[:148] + b"%06o\0 " % total + header[156:] + data[BLOCK:]


def packed(room: Disk, *words: str) -> bytes:
    """What GNU tar of the host packs in the folder `pack`; nothing where there is no such tar."""
    if shutil.which("tar") is None or b"GNU tar" not in subprocess.run(["tar", "--version"], capture_output=True, timeout=60).stdout:
        return b""
    ran = subprocess.run(["tar", "-cf", "-", *words], cwd=room.folder / "pack", capture_output=True, timeout=60)
    return b"" if ran.returncode else ran.stdout


def untarred(room: Disk, data: bytes, what: str) -> dict[str, bytes]:
    """Unpacks an archive into the volume as it was; the new files. A line may tell of a directory below another one."""
    room.image.write_bytes(room.before)
    (room.folder / "a.tar").write_bytes(data)
    ended, out, err = room.f11fs("--stamp", STAMP, "disk", "untar", "a.tar")
    room.assertEqual((ended, out), (0, b""), f"{what}: {err!r}")
    return new_files(room, room.volume())


def refused(room: Disk, data: bytes, *said: str) -> None:
    """An archive is refused, one line says what, and nothing has changed."""
    (room.folder / "a.tar").write_bytes(data)
    names, image = room.names(), room.image.read_bytes()
    for words in (["untar", "a.tar"], ["untar", "a.tar", "[1,2]"]):
        ended, out, err = room.f11fs("--stamp", STAMP, "disk", *words)
        assert (ended, out) == (5, b""), f"{words}: {ended}, {out!r}, {err!r}"
        assert err.count(b"\n") == 1 and all(text in err.decode() for text in said), f"{words}: {err!r}"
        assert room.image.read_bytes() == image, "the image was touched"
        room.assertEqual(room.names(), names, "files of the host")


def new_files(room: Disk, volume: Reader) -> dict[str, bytes]:
    """The files of the volume that were not there before."""
    before = Reader(room.before).contents()
    now = volume.contents()
    room.assertEqual({path: now.get(path) for path in before}, before, "files that were there")
    return {path: data for path, data in now.items() if path not in before}


class Untar(Disk):
    def test_archives_of_gnu_tar(self) -> None:
        self.write({"pack/1,2/lines.txt": TEXT, "pack/1,2/sub/deep.dat": BYTES, "pack/top.txt;5": b"top\n"})
        wanted = {"[1,2]LINES.TXT;1": variable(b"one", b"", b"three"), "[1,2.SUB]DEEP.DAT;1": BYTES, "[0,0]TOP.TXT;5": variable(b"top")}
        for form in ("ustar", "gnu", "oldgnu", "pax", "posix", "v7"):
            for words in (["."], ["1,2", "top.txt;5"]):
                data = packed(self, f"--format={form}", *words)
                if data:
                    self.assertEqual(untarred(self, data, form), wanted, f"{form} {words}")

    def test_directories_of_gnu_tar(self) -> None:
        """An empty folder comes too, at its own time where no time is said."""
        self.write({"pack/full/lines.txt": TEXT})
        (self.folder / "pack" / "empty" / "low").mkdir(parents=True)
        for path in ("empty/low", "empty"):
            os.utime(self.folder / "pack" / path, (500_000_000, 500_000_000))
        for form in ("ustar", "gnu", "oldgnu", "pax", "v7"):
            for words in (["."], ["empty", "full"]):
                data = packed(self, f"--format={form}", *words)
                if data:
                    self.assertEqual([*untarred(self, data, form)], ["[FULL]LINES.TXT;1"], f"{form} {words}")
                    self.assertLessEqual({"[EMPTY]", "[EMPTY.LOW]", "[FULL]"}, {*self.volume().directories}, f"{form} {words}")
                    self.image.write_bytes(self.before)
                    ended, out, err = self.f11fs("disk", "untar", "a.tar", env={**os.environ, "TZ": "UTC0"})
                    self.assertEqual((ended, out), (0, b""), f"{form} {words}: {err!r}")
                    volume = self.volume()
                    for path in ("[0,0]EMPTY.DIR;1", "[EMPTY]LOW.DIR;1"):
                        self.assertEqual(volume.files[volume.paths[path]].created, b"05NOV85005320", f"{form} {words} {path}")

    def test_directories_for_gnu_tar(self) -> None:
        """GNU tar lists and unpacks an archive with directories."""
        for words in (["-q", "disk", "mkdir", "EMPTY"], ["-q", "disk", "mkdir", "EMPTY/LOW"]):
            self.assertEqual(self.f11fs(*words)[0], 0, f"{words}")
        ended, data, err = self.f11fs("disk", "tar")
        self.assertEqual((ended, err), (0, b""))
        self.write({"pack/x": b""})
        if not packed(self, "x"):
            return
        (self.folder / "out").mkdir()
        (self.folder / "a.tar").write_bytes(data)
        listed = subprocess.run(["tar", "-tf", "a.tar"], cwd=self.folder, capture_output=True, timeout=60)
        self.assertEqual((listed.returncode, {b"empty/", b"empty/low/"} <= {*listed.stdout.split(b"\n")}), (0, True), f"{listed}")
        ran = subprocess.run(["tar", "-xf", "a.tar", "-C", "out"], cwd=self.folder, capture_output=True, timeout=60)
        self.assertEqual((ran.returncode, (self.folder / "out" / "empty" / "low").is_dir()), (0, True), f"{ran}")

    def test_long_names(self) -> None:
        """GNU tar and Python write a path above 100 bytes into a member of its own, before its member, or into a record."""
        folders = [f"ABCDEFGH{number}" for number in range(1, 10)]
        deep = "/".join(folders)
        files = {f"{deep}/MEMOTWO.TXT": b"\1two\0", f"{deep}/OTHERNAME.DAT": BYTES, "SHORT.DAT": b"\3four\0"}
        wanted = {f"[{'.'.join(folders)}]MEMOTWO.TXT;1": b"\1two\0", f"[{'.'.join(folders)}]OTHERNAME.DAT;1": BYTES, "[0,0]SHORT.DAT;1": b"\3four\0"}
        self.write({f"pack/{path}": data for path, data in files.items()})
        for form in ("gnu", "oldgnu", "posix", "ustar"):
            data = packed(self, f"--format={form}", "--", *files)
            if data:
                self.assertEqual(untarred(self, data, form), wanted, form)
        for name, form in FORMATS.items():
            self.assertEqual(untarred(self, archive(*(member(path, data) for path, data in files.items()), form=form), name), wanted, name)

    def test_long_names_and_twins(self) -> None:
        """Two members of one long path are refused, and not for what their headers can hold of it."""
        deep = "/".join(f"ABCDEFG{number:02}" for number in range(1, 11))
        members = [member(f"{deep}/{name}.TXT", TEXT) for name in ("ONE", "TWO")]
        self.assertEqual(len(untarred(self, archive(*members, form=tarfile.GNU_FORMAT), "two long names")), 2)
        self.image.write_bytes(self.before)
        refused(self, archive(*members, members[0], form=tarfile.GNU_FORMAT), f"{deep}/ONE.TXT", "two members")

    def test_long_links(self) -> None:
        """A link is refused by its own name, however long its target is."""
        target = "/".join(f"ABCDEFG{number:02}" for number in range(1, 15))
        self.write({"pack/1,2/good.txt": TEXT})
        (self.folder / "pack" / "1,2" / "link.txt").symlink_to(target)
        for form in ("gnu", "oldgnu", "posix"):
            data = packed(self, f"--format={form}", "1,2/good.txt", "1,2/link.txt")
            if data:
                refused(self, data, "1,2/link.txt", "a link")
        for form in (tarfile.GNU_FORMAT, tarfile.PAX_FORMAT):
            refused(self, archive(member("1,2/good.txt", TEXT), member("1,2/link.txt", kind=tarfile.SYMTYPE, linkname=target), form=form), "1,2/link.txt", "a link")

    def test_sparse_files(self) -> None:
        self.write({"pack/n.txt": TEXT})
        with open(self.folder / "pack" / "s.dat", "wb") as sparse:
            sparse.truncate(200 << 10)
            sparse.seek(0, os.SEEK_END)
            sparse.write(b"x\n")
        for words in (["--format=gnu"], ["--format=oldgnu"], *(["--format=posix", f"--sparse-version={version}"] for version in ("0.0", "0.1", "1.0"))):
            data = packed(self, "-S", *words, "s.dat", "n.txt")
            if data[156:157] == b"S" or b"GNU.sparse." in data[: 4 * BLOCK]:
                refused(self, data, "s.dat", "a sparse file of GNU tar; pack it without -S")
            data = packed(self, *words[:1], "n.txt")
            if data:
                self.assertEqual(untarred(self, data, f"without -S: {words}"), {"[0,0]N.TXT;1": variable(b"one", b"", b"three")})
        self.image.write_bytes(self.before)
        for records in ({"GNU.sparse.major": "1", "GNU.sparse.minor": "0"}, {"GNU.sparse.size": "204800"}, {"comment": "x", "GNU.sparse.map": "0,1"}):
            refused(self, archive(member("good.txt", TEXT), member("bad.txt", TEXT, records=records)), "bad.txt", "sparse")

    def test_labels(self) -> None:
        self.write({"pack/n.txt": TEXT})
        wanted = {"[0,0]N.TXT;1": variable(b"one", b"", b"three")}
        for form in ("gnu", "oldgnu", "posix"):
            data = packed(self, f"--format={form}", "-V", "A LABEL", "n.txt")
            if data:
                self.assertEqual(untarred(self, data, form), wanted, form)
        self.assertEqual(untarred(self, archive(member("A LABEL", kind=b"V"), member("n.txt", TEXT)), "a label"), wanted)

    def test_old_dates(self) -> None:
        """A time before 1970, or one that no stamp has, is that of the run."""
        self.write({"pack/old.dat": BYTES, "pack/new.dat": BYTES})
        os.utime(self.folder / "pack" / "old.dat", (-315_619_200, -315_619_200))
        os.utime(self.folder / "pack" / "new.dat", (500_000_000, 500_000_000))
        archives = [(form, packed(self, f"--format={form}", "old.dat", "new.dat")) for form in ("gnu", "oldgnu", "posix")]
        for second in (-315_619_200, -1, 1 << 33, 1 << 40):
            for name in ("gnu", "pax"):
                archives.append((f"{name} {second}", archive(member("old.dat", BYTES, mtime=second), member("new.dat", BYTES), form=FORMATS[name])))
        for name, data in archives:
            if not data:
                continue
            self.image.write_bytes(self.before)
            (self.folder / "a.tar").write_bytes(data)
            early = int(time.time())
            self.assertEqual(self.f11fs("disk", "untar", "a.tar", env={**os.environ, "TZ": "UTC0"}), (0, b"", b""), name)
            volume = self.volume()
            self.assertEqual(new_files(self, volume), {"[0,0]OLD.DAT;1": BYTES, "[0,0]NEW.DAT;1": BYTES}, name)
            old, new = (volume.files[volume.paths[f"[0,0]{path}.DAT;1"]].created.decode() for path in ("OLD", "NEW"))
            runs = [time.strftime("%d%b%y%H%M%S", time.gmtime(second)).upper() for second in range(early, int(time.time()) + 1)]
            self.assertEqual((old in runs, new), (True, "05NOV85005320"), f"{name}: {old}, {runs}")

    def test_numbers_in_base_256(self) -> None:
        data = archive(member("x.dat", BYTES), form=tarfile.GNU_FORMAT)
        for at in (108, 116):  # user and group
            data = with_field(data, at, b"\x80" + (70_000).to_bytes(7, "big"))
        self.assertEqual(untarred(self, with_field(data, 124, b"\x80" + len(BYTES).to_bytes(11, "big")), "a size"), {"[0,0]X.DAT;1": BYTES})
        self.image.write_bytes(self.before)
        for size in (b"\xff" * 12, b"\x80" + b"\xff" * 11, b"\x81" + len(BYTES).to_bytes(11, "big")):
            refused(self, with_field(data, 124, size), "a.tar", "is no size")

    def test_archives_before_posix(self) -> None:
        """No magic; a path that ends with a slash is a directory, and a type NUL is a file."""
        file = archive(member("1,2/lines.txt", TEXT), form=tarfile.USTAR_FORMAT)
        folder = archive(member("new/"), form=tarfile.USTAR_FORMAT)
        old = [with_field(with_field(data, 156, kind), 257, bytes(255)) for data in (folder[:BLOCK], file) for kind in (b"\0", b"0")]
        for place in (0, 1):
            self.assertEqual(untarred(self, old[place] + old[2 + place], "no magic"), {"[1,2]LINES.TXT;1": variable(b"one", b"", b"three")})

    def test_extended_headers_of_another_tar(self) -> None:
        records = {"comment": "a remark", "atime": "1.5", "LIBARCHIVE.creationtime": "7", "SCHILY.xattr.user.x": "y"}
        for path, found, headers in (("1,2/a/a/a/x.txt", "[1,2.A.A.A]X.TXT;1", {}), ("1,2/y.txt", "[1,2]Y.TXT;1", {"comment": "of all"})):
            self.assertEqual([*untarred(self, archive(member(path, TEXT, records=records), headers=headers), path)], [found])

    def test_archives_that_are_none(self) -> None:
        good = archive(member("1,2/lines.txt", TEXT), member("1,2/more.dat", BYTES))
        for data in (b"x" * 1024, good[:520], good[:1300], good[:100] + b"9" + good[101:], good[:512], with_field(good, 257, b"USTAR")):
            refused(self, data, "a.tar")
