"""What the measurements of `bench/measure` share: images, scripts, programs that run in turn, and tables with targets."""
import dataclasses
import os
import pathlib
import shutil
import subprocess
import sys
import time
from collections.abc import Callable, Iterable, Sequence

HERE = pathlib.Path(__file__).resolve().parent
Word = str | pathlib.Path
# What make_image.py makes where all is small.
SMALL = "--blocks 8192 --files 60 --directories 3 --held 2000 --scattered 2 --most-files 200"
# The lines of f11 that refuse a command, a script or an image.
REFUSED = (b"NO ", b"BAD ", b"f11: ")


@dataclasses.dataclass
class Figure:
    """Seconds of the clock, seconds of processor, the peak of memory in KiB, and the status."""

    clock: float
    processor: float
    peak: int
    status: int

    def besides(self, other: "Figure") -> "Figure":
        """The least times and the highest peak of two runs."""
        return Figure(min(self.clock, other.clock), min(self.processor, other.processor), max(self.peak, other.peak), other.status)


@dataclasses.dataclass
class Load:
    """A command that is measured. `before` is called ahead of each run; where `may_fail` is set, its status and its lines count for nothing."""

    words: Sequence[Word]
    before: Callable[[], object] = lambda: None
    may_fail: bool = False


@dataclasses.dataclass
class Room:
    """A folder, the programs by their titles, how many runs count, and whether all is small, as in the gate."""

    folder: pathlib.Path
    f11: dict[str, Word]
    f11fs: dict[str, Word]
    runs: int
    is_small: bool

    def image(self, name: str, words: str, *more: Word) -> pathlib.Path:
        """An image of make_image.py. A child makes it, since the memory of this program counts in each peak."""
        with open(self.folder / f"{name}.counts", "wb") as counts:
            subprocess.run([sys.executable, HERE / "make_image.py", *words.split(), *more, self.folder / name], check=True, stdout=counts)
        return self.folder / name

    def hostile(self, words: str) -> pathlib.Path:
        """An image of make_hostile.py."""
        self.does(sys.executable, HERE / "make_hostile.py", "hostile", *words.split())
        return self.folder / "hostile"

    def large(self, *more: Word) -> pathlib.Path:
        """An image of 512 MiB that is full of files."""
        return self.image("large", SMALL if self.is_small else "", *more)

    def volume(self, blocks: int, most_files: int, held: int) -> pathlib.Path:
        """A volume with one directory, file 6, and one file."""
        return self.image(f"volume-{blocks}", f"--blocks {blocks} --files 7 --directories 1 --held {held} --scattered 0 --most-files {most_files}")

    def script(self, name: str, lines: Iterable[str]) -> pathlib.Path:
        """A file with these lines."""
        path = self.folder / f"{name}.script"
        path.write_text("".join(f"{line}\n" for line in lines), "utf-8")
        return path

    def copied(self, name: str, to: str = "image") -> None:
        """Copies an image, and removes what a run has made."""
        shutil.rmtree(self.folder / "got", ignore_errors=True)
        (self.folder / "got").mkdir()
        shutil.copyfile(self.folder / name, self.folder / to)

    def does(self, *words: Word) -> None:
        """Runs a command that is not measured."""
        subprocess.run(words, cwd=self.folder, check=True, stdin=subprocess.DEVNULL, stdout=subprocess.DEVNULL)

    def out(self, name: str) -> pathlib.Path:
        """What the last run of this name has printed."""
        return self.folder / f"{name.replace('/', '-')}.out"

    def run(self, name: str, load: Load) -> Figure:
        """Runs a command once. The peak is never less than that of this program, since the system counts from before the command starts."""
        load.before()
        begin = time.monotonic()
        with open(self.out(name), "wb") as out:
            ran = subprocess.Popen(load.words, cwd=self.folder, stdin=subprocess.DEVNULL, stdout=out, stderr=subprocess.STDOUT)
            _, status, used = os.wait4(ran.pid, 0)
        clock, ran.returncode = time.monotonic() - begin, os.waitstatus_to_exitcode(status)
        with open(self.out(name), "rb") as said:
            refused = None if load.may_fail else next((line for line in said if line.startswith(REFUSED)), b"" if ran.returncode else None)
        if refused is not None:
            sys.exit(f"{name}: status {ran.returncode}: {refused.decode('latin-1')}")
        return Figure(clock, used.ru_utime + used.ru_stime, used.ru_maxrss, ran.returncode)

    def best(self, loads: dict[str, Load]) -> dict[str, Figure]:
        """Runs all in turn, so that they have the same other work beside them; the least times of each, its highest peak and its last status."""
        found = {name: self.run(name, load) for name, load in loads.items()}
        for _ in range(self.runs - 1):
            found = {name: found[name].besides(self.run(name, load)) for name, load in loads.items()}
        return found

    def instructions(self, *words: Word) -> int:
        """The instructions of a run by callgrind: the same in each run."""
        run = [*"valgrind --tool=callgrind --callgrind-out-file=/dev/null".split(), *words]
        said = subprocess.run(run, cwd=self.folder, stdin=subprocess.DEVNULL, capture_output=True, text=True)
        if any(line.encode().startswith(REFUSED) for line in said.stdout.splitlines()):
            sys.exit(f"{' '.join(map(str, words))}: a command is refused")
        return int(said.stderr.rpartition("Collected : ")[2].split()[0])

    def compiled(self, source: str) -> pathlib.Path | None:
        """A plain program in Rust, where there is a compiler."""
        if not has("rustc"):
            return None
        program = self.folder / source.removesuffix(".rs")
        self.does("rustc", "--edition", "2021", "-O", "-o", program, HERE / source)
        return program


def has(*tools: str) -> bool:
    """Whether the host has these tools; otherwise what needs them is left out, and a line says so."""
    lacking = [tool for tool in tools if not shutil.which(tool)]
    print(*(f"no {tool}: what needs it is left out" for tool in lacking), sep="\n", end="\n" * bool(lacking), file=sys.stderr)
    return not lacking


def table(*rows: Sequence[object]) -> None:
    """Prints a table of Markdown; the first row has the heads."""
    for at, row in enumerate(rows):
        print("|", " | ".join(f"{cell:.3f}" if isinstance(cell, float) else str(cell) for cell in row), "|", flush=True)
        if at == 0:
            print("|" + "---|" * len(row))


def target(text: str, figure: float, most: float) -> None:
    """Prints how a figure stands to the most that is wanted. A target that is missed is no failure."""
    print(f"{text}: {figure:.2f}, at most {most} is wanted, {'met' if figure <= most else 'MISSED'}", flush=True)
