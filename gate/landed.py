"""What differs from the landed commit. A session lands once and has three hours, so that is the last commit three hours older than HEAD.

A clone without that commit has none, and everything differs there. LANDED may name another.
"""
import functools
import os
import pathlib
import subprocess

TOP = pathlib.Path(__file__).resolve().parent.parent
HOURS = 3


def git(*words: str) -> str | None:
    """Returns what git says, or nothing if it fails."""
    ran = subprocess.run(["git", *words], cwd=TOP, stdin=subprocess.DEVNULL, capture_output=True)
    return ran.stdout.decode("utf-8", "replace") if ran.returncode == 0 else None


@functools.cache
def commit() -> str:
    """Returns the landed commit, or nothing if the clone has none."""
    date = (git("log", "-1", "--format=%ct") or "0").strip()
    before = int(date) - 3600 * HOURS
    return (git("rev-parse", "--verify", "-q", os.environ["LANDED"]) if "LANDED" in os.environ else git("rev-list", "-1", f"--before={before}", "HEAD") or "").strip()


@functools.cache
def changed() -> frozenset[str]:
    """Returns the files that differ from the landed commit, by their paths."""
    said = git("diff", "--name-only", "--no-renames", commit()) if commit() else git("ls-files")
    return frozenset(f"{said or ''}{git('ls-files', '--others', '--exclude-standard') or ''}".split("\n")) - {""}


def differs(*below: str) -> bool:
    """Says whether a file differs whose path begins with one of these."""
    return any(it.startswith(below) for it in changed())


@functools.cache
def text(path: str) -> str:
    """Returns a file of the landed commit, or an empty text if it had none."""
    return (git("show", f"{commit()}:{path}") if commit() else None) or ""


def tree() -> str:
    """Returns the hash of the tree of HEAD."""
    return (git("rev-parse", "HEAD^{tree}") or "none").strip()
