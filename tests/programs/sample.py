"""The sample volume, examples/sample.dsk, and the commands of README.md that people paste."""
import os
import pathlib
import re
import shutil
import subprocess

from fs_room import Disk, on

TOP = pathlib.Path(__file__).resolve().parent.parent.parent
SAMPLE = TOP / "examples" / "sample.dsk"

README = (TOP / "README.md").read_text("utf-8")


def shown() -> list[str]:
    """The lines of the first block of README.md: commands, and what they print as comments."""
    return re.search(r"^```sh\n(.*?)^```\n", README, re.M | re.S)[1].splitlines()


def commands() -> list[str]:
    """The commands of README.md in order: those of the first block, of indented lines and of the table, but for the one that installs."""
    later = README.partition("```\n")[2]
    found = re.findall(r"^    (.*)$|^.*\| `([^`]*)`$", later, re.M)
    return [line for line in shown() if not line.startswith("#")] + [line or cell for line, cell in found if not line.startswith("./install")]


class Sample(Disk):
    @on(None)
    def test_f11fs_alone_makes_the_sample(self) -> None:
        ran = subprocess.run(["sh", TOP / "examples" / "make_sample.sh", "made.dsk"], cwd=self.folder,
                env={**os.environ, "F11FS": str(self.program)}, capture_output=True, timeout=300)
        self.assertEqual((ran.returncode, ran.stderr), (0, b""), "the script")
        assert (self.folder / "made.dsk").read_bytes() == SAMPLE.read_bytes(), "the bytes are not those of examples/sample.dsk"

    def clone(self) -> dict[str, str]:
        """Puts what the commands of README.md find in a clone into the folder, and returns an environment in which f11fs is installed."""
        shutil.copytree(TOP / "examples", self.folder / "examples")
        (self.folder / "bin").mkdir()
        for link in ("f11fs", "bin/f11fs"):
            (self.folder / link).symlink_to(self.program)
        return {**os.environ, "PATH": f"{self.folder / 'bin'}:{os.environ['PATH']}"}

    @on(None)
    def test_readme_shows_what_the_first_commands_print(self) -> None:
        self.clone()
        printed = []
        for command in (line for line in shown() if not line.startswith("#")):
            ran = subprocess.run(["sh", "-c", command], cwd=self.folder, capture_output=True, text=True, timeout=120)
            self.assertEqual((ran.returncode, ran.stderr), (7 if " check" in command else 0, ""), command)
            printed += [command, *(f"# {line}".rstrip() for line in ran.stdout.splitlines())]
        self.assertEqual(printed, shown(), "what the first commands print")
        self.assertEqual([line for line in printed if len(line) > 80], [], "lines wider than a terminal of 80 columns")

    @on(None)
    def test_commands_of_the_readme_run_in_order(self) -> None:
        """As they are pasted into a shell in a clone, with f11fs installed."""
        environment = self.clone()
        lines = commands()
        assert len(lines) >= 32, f"only {len(lines)} commands of README.md"
        for line in lines:
            ran = subprocess.run(["sh", "-c", line], cwd=self.folder, env=environment, stdin=subprocess.DEVNULL, capture_output=True, timeout=300)
            # The sample has a lost file, which a check finds; the new volume has more versions than the old one.
            self.assertEqual(ran.returncode, 7 if " check" in line or " cmp " in line else 0, f"{line}: {ran.stderr!r}")
            remarks = [it for it in ran.stderr.splitlines() if b"restores the records" not in it]
            self.assertEqual(remarks, [], f"the errors of {line}")
        self.assertEqual((self.folder / "gone.txt").read_bytes(), b"I was deleted.\n", "the deleted file")
        self.assertEqual((self.folder / "old.dsk").read_bytes(), SAMPLE.read_bytes(), "the image that no command changes")
        for name in ("disk.dsk", "new.dsk", "floppy.dsk"):
            self.assertEqual(self.f11fs(name, "check", "--all"), (0, b"sound\n", b""), name)
