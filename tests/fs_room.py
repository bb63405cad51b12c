"""A folder with the image of a volume and the programs, in which tests run them; and what they look at: `Disk` is a test case of tests/programs/, `Room` stands alone."""
import os
import pathlib
import re
import resource
import signal
import subprocess
from collections.abc import Callable, Iterable
from typing import Any

import harness
from fs_reader import File, Reader
from fs_volumes import volume_named

OLD = 1_000_000_000  # when images were written, in seconds
STAMP = "24NOV85093000"
NOBODY = 65534


def files_of(folder: pathlib.Path) -> dict[str, bytes | None]:
    """The files below a folder of the host by their paths, and its folders, which have no bytes."""
    return {str(path.relative_to(folder)): path.read_bytes() if path.is_file() else None for path in folder.rglob("*")}


class Folder:
    """What a test does in its folder."""

    program: pathlib.Path
    f11: pathlib.Path
    folder: pathlib.Path
    before: bytes | None

    def lay(self, image: bytes | None) -> None:
        """Makes the image, or another one."""
        self.before, self.image = image, self.folder / "disk"
        if image is not None:
            self.image.write_bytes(image)
            os.utime(self.image, (OLD, OLD))

    def f11fs(self, *words: str | bytes, **more: Any) -> tuple[int, bytes, bytes]:
        """Runs the program here; returns the status, the output and the errors."""
        how = {"stdin": None if "input" in more else subprocess.DEVNULL, "capture_output": True, "cwd": self.folder, "timeout": 120, **more}
        ran = subprocess.run([self.program, *words], **how)
        return ran.returncode, ran.stdout, ran.stderr and harness.steady(ran.stderr)

    def does(self, *words: str | bytes, **more: Any) -> bytes:
        """These words are obeyed, and nothing is said; what is printed."""
        status, out, err = self.f11fs(*words, **more)
        equal((status, err), (0, b""), f"{words}")
        return out

    def is_sound(self, *names: str) -> None:
        """check --all has nothing to tell of these images, or of the one."""
        for name in names or ("disk",):
            equal(self.f11fs(name, "check", "--all"), (0, b"sound\n", b""), f"check of {name}")

    def names(self) -> list[str]:
        return sorted(path.name for path in self.folder.iterdir())

    def is_untouched(self) -> bool:
        """Whether the image is as it was, its times too."""
        return self.image.read_bytes() == self.before and self.image.stat().st_mtime == OLD

    def volume(self, name: str = "disk") -> Reader:
        """The volume that the image is, which f11 accepts too."""
        ran = subprocess.run([self.f11, name], cwd=self.folder, stdin=subprocess.DEVNULL, capture_output=True, timeout=60)
        assert ran.returncode == 0, f"f11 refuses the image: {ran.stdout!r} {ran.stderr!r}"
        return Reader((self.folder / name).read_bytes())


class Room(Folder):
    """A folder with the image of a volume, and the programs."""

    def __init__(self, programs: tuple[pathlib.Path, pathlib.Path], folder: str | pathlib.Path, image: bytes | None) -> None:
        (self.program, self.f11), self.folder = programs, pathlib.Path(folder)
        self.lay(image)

    run = Folder.f11fs


class Disk(Folder, harness.Case):
    """A test with the plain volume, or the image that its method asks for by `on`."""

    def setUp(self) -> None:
        self.program, self.f11 = harness.programs
        self.lay(getattr(getattr(self, self._testMethodName), "image", lambda: volume_named("plain"))())

    def refuses(self, status: int, why: str | re.Pattern[bytes], *words: str | bytes, **more: Any) -> None:
        """These words are refused with this line, or one of this pattern, and nothing is touched."""
        names = self.names()
        ended, out, err = self.f11fs(*words, **more)
        self.assertEqual((ended, out), (status, b""), f"{words}: {err!r}")
        self.fits(err, why, words)
        self.assertTrue(self.is_untouched(), f"{words} touched the image")
        self.assertEqual(self.names(), names, f"files of the host after {words}")

    def fits(self, found: bytes, expected: str | re.Pattern[bytes], what: object) -> None:
        """An expected text is a pattern of the whole where it was compiled."""
        if isinstance(expected, re.Pattern):
            self.assertTrue(expected.fullmatch(found), f"{what}: {found!r:.500}, not {expected.pattern!r:.500}")
        else:
            self.assertEqual(found.decode(), expected, what)

    def write(self, files: dict[str, bytes]) -> None:
        """Makes files of the host, with their folders."""
        for name, data in files.items():
            (self.folder / name).parent.mkdir(parents=True, exist_ok=True)
            (self.folder / name).write_bytes(data)

    def file(self, path: str, name: str = "disk") -> File:
        """The file at this path."""
        volume = self.volume(name)
        return volume.files[volume.paths[path]]


def on(image: Callable[[], bytes] | None) -> Callable[[Any], Any]:
    """Makes the image of a test by this function, or none."""

    def note(method: Any) -> Any:
        method.image = image or (lambda: None)
        return method

    return note


def limited(size: int, ignored: bool) -> Callable[[], None]:
    """Lets the files of a run grow to this size alone; a signal at more ends it, unless that is ignored: then writing fails."""

    def before() -> None:
        resource.setrlimit(resource.RLIMIT_CORE, (0, 0))
        # Python ignores the signal in what it starts, unless it is asked not to.
        signal.signal(signal.SIGXFSZ, signal.SIG_IGN if ignored else signal.SIG_DFL)
        resource.setrlimit(resource.RLIMIT_FSIZE, (size, size))

    return before


def memory(size: int) -> Callable[[], None]:
    """Lets a run have so much memory, and no more."""
    return lambda: resource.setrlimit(resource.RLIMIT_AS, (size, size))


def for_each(cls: type, name: str, values: Iterable[Any], judge: Callable[..., object], image: Callable[[Any], Callable[[], bytes | None]] | None = None) -> None:
    """Gives a class a test for each value, which calls judge(case, value)."""
    for value in values:
        def test(case: Any, value: Any = value) -> None:
            judge(case, value)
        if image:
            test.image = image(value)
        setattr(cls, f"test_{name}_{value}", test)


def equal(found: object, expected: object, what: str) -> None:
    assert found == expected, f"{what}: {found!r:.500}, not {expected!r:.500}"
