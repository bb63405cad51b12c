"""Where the programs are: those built here, and those in dist/."""
import os
import pathlib
import re
import shutil
import subprocess

TOP = pathlib.Path(__file__).resolve().parent.parent
NAMES = ("f11", "f11fs", "host_caller")


def built(name: str) -> pathlib.Path:
    """Returns where a program is once it was proved and built here."""
    return TOP / "crates" / name / "out" / name


def shipped(name: str) -> pathlib.Path:
    """Returns where a program is in dist/."""
    return TOP / "dist" / f"{name}-x86_64-linux"


def chosen(name: str) -> pathlib.Path:
    """Returns the program that ./NAME runs: the one in dist/, or the one that was built here if that is newer."""
    own, other = built(name), shipped(name)
    is_newer = own.is_file() and (not other.is_file() or own.stat().st_mtime > other.stat().st_mtime)
    return own if is_newer else other


def forget() -> None:
    """Removes the programs that were built here, so that none is taken for one that is built now."""
    for name in NAMES:
        built(name).unlink(missing_ok=True)


def forget_libraries() -> None:
    """Removes the libraries that were built here: `rt ci` then leaves its own, for gate/edits."""
    for libraries in TOP.glob("crates/*/out/rlib"):
        shutil.rmtree(libraries)


def toolchain() -> str:
    """Returns the toolchain's line, or nothing on a host without one."""
    return "" if not shutil.which("rt") else subprocess.run(["rt", "version"], capture_output=True, text=True).stdout.strip()


def noted_toolchain() -> str:
    """Returns the line of the toolchain that made dist/."""
    noted = TOP / "dist" / "TOOLCHAIN"
    return noted.read_text("utf-8").strip() if noted.is_file() else ""


def lanes() -> int:
    """Returns how many checks may run at once: one a processor, with 4 GB of free memory for each."""
    found = re.search(r"^MemAvailable:\s+(\d+)", pathlib.Path("/proc/meminfo").read_text(), re.M)
    return max(1, min(len(os.sched_getaffinity(0)), int(found[1]) // 4_000_000 if found else 1))
