"""How a change is saved, and failures of the host; random files there and back, by a reader of its own."""
import collections
import concurrent.futures
import fcntl
import os
import random
import signal
from collections.abc import Iterable
from typing import Any

from fs_image import BLOCK
from fs_reader import Reader
from fs_room import NOBODY, STAMP, Disk, equal, for_each, limited

AS_NOBODY = {"user": NOBODY, "group": NOBODY, "extra_groups": []}


def changes(room: Disk, *words: str, **more: Any) -> None:
    """Runs `mkdir NEW` with these words before the image, and looks that it is done."""
    equal(room.does(*words, "--stamp", STAMP, "disk", "mkdir", "NEW", **more), b"", "a change")
    assert "[NEW]" in room.volume().directories, "the change is not there"


def refuses(room: Disk, why: str, *words: str, path: str = "disk", **more: Any) -> None:
    """Runs `mkdir NEW` with these words before the image, and looks that it is refused and nothing has changed."""
    room.refuses(3, f"f11fs: {path}: {why}\n", *words, "--stamp", STAMP, "disk", "mkdir", "NEW", **more)


def random_bytes(pick: random.Random) -> tuple[bytes, bool]:
    """Some bytes, and what kind they are by rule: lines, or bytes as they are."""
    if pick.random() < 0.5:
        lines = [bytes(pick.choice(b"abc ABC\t.\r;") for _ in range(pick.choice((0, 1, 2, 5, 40, 300)))) for _ in range(pick.randrange(12))]
        data = b"".join(line + b"\n" for line in lines)
        if pick.random() < 0.3:
            data = data[: pick.randrange(len(data) + 1)]
    else:
        data = pick.randbytes(pick.choice((0, 1, 511, 512, 513, 1024, pick.randrange(3000))))
    is_text = data == b"" or data.endswith(b"\n") and b"\r\n" not in data and all(7 <= byte <= 13 or byte == 27 or 32 <= byte <= 126 for byte in data)
    return data, is_text


def has_files(room: Disk, name: str, before: Reader, files: dict[str, tuple[bytes, bool]], got: Iterable[str]) -> Reader:
    """The volume has these files more than before, by the reader and by `cmp` with the image `old`, and of some by `get`; the volume then."""
    volume, wanted = room.volume(name), before.contents()
    for path, (data, is_text) in files.items():
        if is_text:
            equal((volume.records(path), volume.files[volume.paths[path]].kind), (data.split(b"\n")[:-1], 2), path)
        else:
            equal(volume.data(path), data, path)
        wanted[path] = volume.data(path)
    equal(volume.contents(), wanted, "files of the volume")
    for path in got:
        equal(room.f11fs(name, "get", path, "-"), (0, files[path][0], b""), f"get {path}")
    room.is_sound(name)
    status, out, _ = room.f11fs(name, "cmp", "old")
    equal((status, sorted(out.decode().splitlines())), (7, sorted(f"{path}: only in the first image" for path in files)), "cmp")
    return volume


def round_trip(room: Disk, seed: int) -> None:
    """Puts files on a volume in one run, and looks at them."""
    pick = random.Random(seed)
    (room.folder / "old").write_bytes(room.before)
    files, commands = {}, []
    for number in range(pick.randrange(1, 7)):
        data, is_text = random_bytes(pick)
        name = f"{pick.choice('abcxyz')}{number}.{pick.choice(('txt', 'dat', 't', ''))}".rstrip(".")
        (room.folder / name).write_bytes(data)
        folder = pick.choice(("[1,2]", "[0,0]"))
        files[f"{folder}{name.upper()}{'' if '.' in name else '.'};1"] = data, is_text
        commands.append(f"put {name} {folder}\n")
    blocks = sum(-(-(len(data) + 3 * data.count(b"\n")) // BLOCK) for data, _ in files.values())
    status, out, err = room.f11fs("-q", "--stamp", STAMP, "disk", "-f", "-", input="".join(commands).encode())
    if blocks > 24 and status:
        equal((status, room.is_untouched()), (5, True), f"{err!r}")
        return
    equal((status, out, err), (0, b"", b""), f"put {blocks} blocks")
    has_files(room, "disk", Reader(room.before), files, files)


def growing(room: Disk, seed: int) -> None:
    """Puts files on a new volume of a random size, run by run, into names that are there too and into directories that grow, until it is full."""
    pick = random.Random(100_000 + seed)
    blocks = pick.choice((50, 64, 130, 300, 700))
    numbers = pick.randrange(1, min(90, blocks // 3))
    equal(room.f11fs("--stamp", STAMP, "vol", "init", str(blocks), "--files", str(numbers))[::2], (0, b""), "init")
    room.does("--stamp", STAMP, "vol", "mkdir", "NEW")
    before, versions, refused, number = room.volume("vol"), collections.Counter[str](), 0, 0
    while refused < 2 and number < 150:
        (room.folder / "old").write_bytes(before.image)
        commands, texts, blocks = [], {}, 0
        for _ in range(pick.choice((1, 2, 7, 40))):
            number += 1
            data, is_text = random_bytes(pick) if pick.random() < 0.5 else (b"", True)
            (room.folder / f"h{number}").write_bytes(data)
            path = f"{pick.choice(('[NEW]', '[NEW]', '[NEW]', '[0,0]'))}{pick.choice('ABCDEFGHIJKLMNOPQRSTUVWXYZ')}{pick.randrange(3)}.{pick.choice(('TXT', 'D', ''))}"
            commands.append(f"put h{number} {path}\n")
            versions[path] += 1
            texts[f"{path};{versions[path]}"] = data, is_text
            blocks += -(-(len(data) + 3 * data.count(b"\n")) // BLOCK)
        status, out, err = room.f11fs("-q", "--stamp", STAMP, "vol", "-f", "-", input="".join(commands).encode())
        # A directory gets a block for 32 names; INDEXF.SYS grows by the headers that are wanted, and its own header has room for 102 pieces.
        may_be_full = blocks + 2 * len(texts) // 32 + 4 + len(texts) > before.free or len(before.files) + len(texts) + 8 > before.most_files
        if status == 5 and (may_be_full or before.header(1)[100] // 2 + len(texts) > 102):
            assert b"VolumeFull" in err or b"HeadersFull" in err, f"{err!r}"
            equal((room.folder / "vol").read_bytes(), before.image, "the image after a refusal")
            refused += 1
            versions.subtract(path.split(";")[0] for path in texts)
            continue
        equal((status, out, err), (0, b"", b""), f"put {len(texts)} files, {blocks} blocks of {before.free}")
        before = has_files(room, "vol", before, texts, pick.sample(sorted(texts), min(3, len(texts))))


class Changes(Disk):

    def test_lock_is_respected(self) -> None:
        for kind in (fcntl.LOCK_EX, fcntl.LOCK_SH):
            with open(self.image, "rb") as held:
                fcntl.flock(held, kind)
                refuses(self, "another program has locked it")
                refuses(self, "another program has locked it", "-o", "new")
                status, out, _ = self.f11fs("disk", "ls", "1,2/")
                self.assertEqual((status, out), (0, b"NOTES.TXT;1\nOTHER.TXT;1\nTASK.TSK;3\n3 files, 4 blocks\n"), "a read beside a lock")
                # A program that another check starts at this moment may hold a copy of the file until it runs, and with it the lock.
                fcntl.flock(held, fcntl.LOCK_UN)
        changes(self)

    def test_writers_lose_nothing(self) -> None:
        """Twelve writers at once, each of which tries again where another has the image."""
        def write(number: int) -> None:
            for _ in range(400):
                status, _, err = self.f11fs("--stamp", STAMP, "disk", "mkdir", f"NEW{number}")
                if status == 0:
                    return
                assert err in (b"f11fs: disk: another program has locked it\n", b"f11fs: disk: another program changed or replaced it meanwhile\n"), err
            raise AssertionError("a writer never got the image")
        with concurrent.futures.ThreadPoolExecutor(12) as pool:
            list(pool.map(write, range(12)))
        assert {f"[NEW{number}]" for number in range(12)} <= {*self.volume().directories}, "a change was lost"
        self.assertEqual(self.names(), ["disk"], "files of the host")

    def test_no_room(self) -> None:
        for size in (0, 1, 8192, BLOCK * 80 - 1):
            refuses(self, "writing failed: it is too large", preexec_fn=limited(size, True))
            refuses(self, "writing failed: it is too large", "--backup", preexec_fn=limited(size, True))
            refuses(self, "writing failed: it is too large", "-o", "new", path="new", preexec_fn=limited(size, True))
        changes(self)

    def test_ended_by_force_while_it_writes(self) -> None:
        status, _, err = self.f11fs("--stamp", STAMP, "disk", "mkdir", "NEW", preexec_fn=limited(8192, False))
        self.assertEqual((status, err), (-signal.SIGXFSZ, b""), "the end by force")
        assert self.is_untouched(), "the image was touched"
        self.assertEqual(self.names(), [".disk.f11fs-new", "disk"], "files of the host")
        changes(self)
        self.assertEqual(self.names(), ["disk"], "files of the host")

    def test_no_right(self) -> None:
        if os.geteuid() != 0:
            return
        for mode, owner, folder_mode, folder_owner, why in (
            (0o444, NOBODY, 0o755, NOBODY, "no permission to write to it"),
            (0o644, 0, 0o777, 0, "no permission to write to it"),
            (0o600, 0, 0o777, 0, "no permission to write to it"),
            (0o666, NOBODY, 0o755, 0, "no new file .NAME.f11fs-new can be made beside it: no permission"),
            (0o666, 0, 0o777, 0, "its owner or mode cannot be kept: no permission"),
        ):
            self.image.chmod(mode)
            os.chown(self.image, owner, owner)
            self.folder.chmod(folder_mode)
            os.chown(self.folder, folder_owner, folder_owner)
            refuses(self, why, **AS_NOBODY)
            if mode == 0o444:
                self.does("-o", "new", "--stamp", STAMP, "disk", "mkdir", "NEW", **AS_NOBODY)
        os.chown(self.image, NOBODY, NOBODY)
        changes(self, **AS_NOBODY)


for_each(Changes, "round_trip", range(100), round_trip)
for_each(Changes, "growing", range(25), growing, lambda seed: lambda: None)
