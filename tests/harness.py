"""Runs test cases of unittest side by side, in threads, and says which failed. A script of tests ends with `sys.exit(harness.main(__doc__, ("F11FS", "F11")))`.

The words of its command line are these programs, by position, and then WORDS: with them only tests whose names have one of them. `harness.programs`
has the paths of the programs. The tests are those of the script's own classes; or what `cases` gives, a function that is called when the programs are
known. A test is named by its class and its method in words, `Names: a name is long`, or by its attribute `title`. A `Case` is a TestCase with
`self.folder`, a folder of its own that any user may enter; `Given(title, judge)` is one that calls judge(case). Each setUpClass is called before all
tests, and class cleanups behind all. A test that fails is printed as 'FAILED NAME: WHY', one that is skipped as 'SKIPPED NAME: WHY'; that one passes.
The last line is 'N passed, M failed', and the status is 0 where none failed and at least one ran.
"""
import concurrent.futures
import functools
import os
import pathlib
import re
import sys
import tempfile
import types
import unittest
from collections.abc import Callable, Iterable, Sequence
from typing import Any

programs: list[pathlib.Path] = []
# What f11fs adds to its errors if the host is too busy: a change looks for two seconds for other users of the image.
BUSY = re.compile(rb"f11fs: [^\n]*: [1-9]\d* processes could not be looked at in time; one of them may have it open\n")


def steady(errors: bytes) -> bytes:
    """Returns the errors of f11fs without what it adds on a busy host."""
    return BUSY.sub(b"", errors)


class Case(unittest.TestCase):
    @functools.cached_property
    def folder(self) -> pathlib.Path:
        made = pathlib.Path(self.enterContext(tempfile.TemporaryDirectory(prefix="f11-test-", ignore_cleanup_errors=True)))
        made.chmod(0o755)
        return made


class Given(Case):
    def __init__(self, title: str, judge: Callable[["Given"], object]) -> None:
        self.title, self.runTest = title, lambda: judge(self) and None
        super().__init__()


def tests_of(module: types.ModuleType) -> list[Any]:
    return [test for suite in unittest.defaultTestLoader.loadTestsFromModule(module) for test in suite]


def name_of(test: Any) -> str:
    return getattr(test, "title", "") or f"{type(test).__name__}: {test.id().rpartition('.')[2].removeprefix('test_').replace('_', ' ')}"


def is_right(test: unittest.TestCase) -> bool:
    test.run(result := unittest.TestResult())
    said = "".join(f"SKIPPED {name_of(test)}: {why}\n" for _, why in result.skipped)
    for one, text in result.failures + result.errors:
        place = re.findall(r'File ".*?([^/]*)", line (\d+)', text)[-1:]
        why = [*map(str, dict(getattr(one, "params", {})).items()), *map(":".join, place), re.split(r"\n(?=\S)", text, maxsplit=1)[1].rstrip()[:2000]]
        said += f"FAILED {name_of(test)}: {' '.join(why)}\n"
    print(said, end="", flush=True)
    return result.wasSuccessful()


def main(usage: str | None, names: Sequence[str] = (), cases: Callable[[], Iterable[Any]] | None = None, jobs: int = os.cpu_count() or 1) -> int:
    words, only = sys.argv[1 : len(names) + 1], sys.argv[len(names) + 1 :]
    if len(words) < len(names) or {"-h", "--help"} & {*words, *only}:
        sys.exit(usage)
    programs[:] = [pathlib.Path(word).resolve() for word in words]
    chosen = [test for test in (cases() if cases else tests_of(sys.modules["__main__"])) if not only or any(word in name_of(test) for word in only)]
    classes = dict.fromkeys(map(type, chosen))
    list(map(lambda one: one.setUpClass(), classes))
    with concurrent.futures.ThreadPoolExecutor(jobs) as pool:
        right = sum(pool.map(is_right, chosen))
    list(map(lambda one: one.doClassCleanups(), classes))
    print(f"{right} passed, {len(chosen) - right} failed")
    return 0 if chosen and right == len(chosen) else 1
