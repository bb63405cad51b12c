"""Words of f11fs beside the rows: options that do nothing, help, large host files, pipes and locks."""
import fcntl
import os
import pathlib
import re
import subprocess
import time

from fs_image import BLOCK
from fs_room import STAMP, Disk

IDLE = {
    "ls": "-o --backup --break-links -n --force --stamp --keep-going",
    "find": "-o --backup --break-links -n --force --stamp --keep-going",
    "stat": "-o --backup --break-links -n --force --stamp --keep-going",
    "cat": "-o --backup --break-links -n --force --stamp --keep-going --json",
    "get": "--backup --break-links --stamp --keep-going",
    "df": "-o --backup --break-links -n --force --stamp --keep-going -u",
    "info": "-o --backup --break-links -n --force --stamp --keep-going -u",
    "du": "-o --backup --break-links -n --force --stamp --keep-going -u",
    "check": "-o --backup --break-links -n --force --stamp --keep-going -u",
    "rescue": "-o --backup --break-links --force --stamp --keep-going -u",
    "cmp": "-o --backup --break-links -n --force --stamp --keep-going",
    "put": "--keep-going",
    "untar": "--keep-going",
    "cp": "--keep-going",
    "mv": "--keep-going --stamp",
    "rm": "--keep-going --stamp",
    "mkdir": "--keep-going",
    "rmdir": "--keep-going --stamp",
    "truncate": "--keep-going --stamp",
    "append": "--keep-going --stamp",
    "chmod": "--keep-going --stamp",
    "chown": "--keep-going --stamp",
    "label": "--keep-going --stamp -u",
    "repair": "--keep-going --json -u",
    "convert": "-o --backup --break-links -n --force --stamp --keep-going --json -u",
}

VALUES = {"-o": ["x.out"], "--stamp": [STAMP], "-u": ["1,2"]}
WORDS = {"ls": [], "find": [], "df": [], "info": [], "du": [], "check": [], "cp": ["A", "B"], "mv": ["A", "B"], "truncate": ["A", "0"], "append": ["A", "b"], "chmod": ["000000", "A"],
         "chown": ["1,2", "A"], "repair": ["all"]}
ALL = "-o --backup --break-links -n --force --stamp --json -u -q --keep-going --blocks --order".split()


def opened(path: pathlib.Path, reader: subprocess.Popen[bytes]) -> int:
    """A descriptor of a pipe for writing, as soon as the reader has opened it."""
    for _ in range(600):
        try:
            return os.open(path, os.O_WRONLY | os.O_NONBLOCK)
        except OSError:
            assert reader.poll() is None, "nobody reads the pipe"
            time.sleep(0.1)
    raise AssertionError("nobody reads the pipe")


class Words(Disk):
    def test_options_that_do_nothing(self) -> None:
        for command, options in IDLE.items():
            for option in options.split():
                said, words = [option, *VALUES.get(option, [])], WORDS.get(command, ["A"])
                line = f"error: {option} does nothing for {command}\n"
                self.refuses(2, line, *said, "disk", command, *words)
                self.refuses(2, line, "disk", *said, command, *words)
                self.refuses(2, line, "disk", command, *said, *words)

    def test_help_of_a_command(self) -> None:
        for command, idle in IDLE.items():
            for words in (("disk", command, "--help"), (command, "--help")):
                text = self.does(*words).decode()
                assert f"Usage: f11fs IMAGE {command}" in text, f"the usage of {command}"
                named = {option for line in text.splitlines() if line.startswith("  ") for option in re.findall(r"(?<![\w-])--?[a-z][a-z-]*",
                        line.split("   ")[0] + " " + line[:24])}
                for option in ALL:
                    self.assertEqual(option in named, option not in idle.split(), f"{option} in the help of {command}")

    def test_host_file_that_is_too_large(self) -> None:
        free = self.volume().free * BLOCK
        with open(self.folder / "large", "wb") as large:
            large.truncate(3 << 30)
        line = f"f11fs: large: VolumeFull: it has 3221225472 bytes, and the free blocks of the volume hold {free}\n"
        self.refuses(5, line, "disk", "put", "large", "1,2/L.L")
        line = f"f11fs: /dev/zero: VolumeFull: it has more bytes than the {free} that the free blocks of the volume hold\n"
        self.refuses(5, line, "disk", "put", "/dev/zero", "1,2/L.L")

    def test_pipe_is_read_before_the_lock(self) -> None:
        os.mkfifo(self.folder / "pipe")
        waits = subprocess.Popen([self.program, "--stamp", STAMP, "disk", "put", "pipe", "1,2/P.TXT"], cwd=self.folder,
                stdin=subprocess.DEVNULL, stderr=subprocess.PIPE)
        try:
            with open(opened(self.folder / "pipe", waits), "wb") as pipe:
                self.does("--stamp", STAMP, "disk", "mkdir", "NEW")
                pipe.write(b"one\ntwo\n")
            _, err = waits.communicate(timeout=60)
        finally:
            waits.kill()
        self.assertEqual((waits.returncode, err), (0, b""), "the put")
        volume = self.volume()
        assert "[NEW]" in volume.directories and "[1,2]P.TXT;1" in volume.paths, "both changes"

    def test_other_image_in_a_pipe_is_read_before_the_lock(self) -> None:
        os.mkfifo(self.folder / "pipe")
        self.write({"todo": b"cp --from pipe '[1,2]NOTES.TXT' /\n"})
        other = self.image.read_bytes()
        for directory, words in ("ONE", ("cp", "--from", "pipe", "[1,2]NOTES.TXT", "/")), ("TWO", ("-f", "todo")):
            waits = subprocess.Popen([self.program, "--stamp", STAMP, "disk", *words], cwd=self.folder, stdin=subprocess.DEVNULL, stderr=subprocess.PIPE)
            try:
                pipe = opened(self.folder / "pipe", waits)
                os.set_blocking(pipe, True)
                with open(pipe, "wb") as writer:
                    self.does("--stamp", STAMP, "disk", "mkdir", directory)
                    writer.write(other)
                _, err = waits.communicate(timeout=60)
            finally:
                waits.kill()
            self.assertEqual((waits.returncode, err), (0, b""), "the cp")
            volume = self.volume()
            assert f"[{directory}]" in volume.directories and "[0,0]NOTES.TXT;1" in volume.paths, "both changes"
            self.does("disk", "rm", "[0,0]NOTES.TXT;1")

    def test_a_file_of_commands_that_look_takes_no_lock(self) -> None:
        looks = b"ls -i [1,2]NOTES.TXT\nstat 1,2/NOTES.TXT # of a refused volume too\ncheck\n"
        self.write({"todo": looks, "more": looks + b"mkdir NEW\n"})
        with open(self.image, "r+b") as held:
            fcntl.flock(held, fcntl.LOCK_EX)
            assert self.does("disk", "-f", "todo").endswith(b"sound\n"), "what was shown"
            self.refuses(3, re.compile(rb"f11fs: disk: [^\n]+\n"), "disk", "-f", "more")
