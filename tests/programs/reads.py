"""The commands that read: files of the host whole or not at all, rescues, long lists, and what is said of what is refused."""
import json
import os
import re
import subprocess

from fs_image import BLOCK, Volume
from fs_room import Disk, limited, memory, on


def with_entries(count: int, number: int) -> bytes:
    """The image of a volume whose master directory has so many names of a file of ten blocks, or of none where the number is another."""
    volume = Volume(1000)
    entries = [(f"F{place:05}.DAT;1", number, 1) for place in range(count)]
    volume.directory(4, "000000.DIR;1", ("000000.DIR;1", 4, 4), *entries, places=volume.take((16 * (count + 1) + BLOCK - 1) // BLOCK))
    volume.file(9, "BIG.DAT;1", b"b" * 10 * BLOCK, kind=1, size=512)
    return volume.bytes()


def seconds_of(room: Disk, *words: str) -> float:
    """The processor time of a run."""
    with subprocess.Popen([room.program, *words], cwd=room.folder, stdin=subprocess.DEVNULL, stdout=subprocess.DEVNULL, stderr=subprocess.DEVNULL) as ran:
        _, status, used = os.wait4(ran.pid, 0)
        ran.returncode = os.waitstatus_to_exitcode(status)
    room.assertEqual(ran.returncode, 0, f"{words}")
    return used.ru_utime


class Reads(Disk):
    @on(lambda: with_entries(1, 9))
    def test_get_keeps_the_old_file_and_leaves_no_part(self) -> None:
        line = re.compile(rb"f11fs: \[0,0\]F00000\.DAT;1: writing x failed: [^\n]+\n")
        self.refuses(3, line, "disk", "get", "F00000.DAT", "x", preexec_fn=limited(4096, True))
        self.write({"x": b"mine"})
        self.refuses(3, line, "disk", "get", "--force", "F00000.DAT", "x", preexec_fn=limited(4096, True))
        self.assertEqual((self.folder / "x").read_bytes(), b"mine", "the old file")

    @on(lambda: with_entries(16000, 9))
    def test_get_of_many_names(self) -> None:
        for folder in ("one", "two"):
            (self.folder / folder).mkdir()
        if seconds_of(self, "disk", "find") > 2:
            return  # a program that is built to be looked into
        plain = seconds_of(self, "disk", "get", "*.DAT", "one")
        forced = seconds_of(self, "disk", "get", "--force", "*.DAT", "two")
        assert forced < 2 * plain + 0.3, f"{forced:.2f} s of a processor, and {plain:.2f} without --force"

    def test_rescue_reads_no_more(self) -> None:
        if self.f11fs("--version", preexec_fn=memory(400 << 20))[0] != 0:
            return  # a program that is built to be looked into wants more than that to begin with
        with open(self.folder / "large", "wb") as large:
            large.truncate(3 << 30)
        status, out, err = self.f11fs("large", "rescue", "out", preexec_fn=memory(400 << 20))
        self.assertEqual((status, out), (1, b""), "rescue")
        self.fits(err, re.compile(rb"f11fs: large: TooBig: [^\n]+\n"), "the line")
        self.assertEqual(self.f11fs("/dev/zero", "rescue", "out", preexec_fn=memory(400 << 20)), (3, b"", b"f11fs: out of memory\n"), "want of memory")
        self.assertEqual(self.names(), ["disk", "large"], "files of the host")

    @on(lambda: with_entries(10500, 30))
    def test_check_of_many_findings(self) -> None:
        status, out, err = self.f11fs("disk", "check", "--all")
        lines = out.decode().splitlines()
        told = [line for line in lines if line.startswith("directory 4 has F")]
        self.assertEqual((status, len(told), err), (7, 10000, b""), "check --all")
        assert any(re.fullmatch(r"and \d+ more findings", line) for line in lines), f"{lines[-3:]}"
        status, out, err = self.f11fs("disk", "check", "--all", "--json")
        assert any("more_findings" in json.loads(line) for line in out.splitlines()), "check --all --json"
        status, out, err = self.f11fs("disk", "check")
        self.fits(out, re.compile(rb"105\d\d findings that a mount does not refuse; check --all lists them\n"), "check")
