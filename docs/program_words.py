"""What the help of a program says: its commands, its options and its words. docs/list_words and docs/check_manuals read it.

`of_program(path)` runs `path --help`, and `path COMMAND --help` for each command that stands there.
"""
import dataclasses
import pathlib
import re
import subprocess

OPTION = re.compile(r"(?:(-\w)(?:, )?)?(--[a-z][a-z-]*)?(?: <([\w,]+)>)?$")


@dataclasses.dataclass
class Option:
    """An option: how it is written, the name of its value or none, and what it does."""
    words: list[str]
    value: str | None
    text: str


@dataclasses.dataclass
class Words:
    """A program or a command: its line of usage, options, the names of the words that it takes, and what each argument is."""
    name: str
    text: str
    usage: str
    options: list[Option]
    takes: list[str]
    arguments: dict[str, str]


def sections(text: str) -> dict[str, list[str]]:
    """Parts a help at its headings: the lines of each, a line that goes on joined to the one before."""
    found = {"": []}
    rows = found[""]
    for line in text.split("\n"):
        heading = re.fullmatch(r"(Commands|Arguments|Options):", line)
        if heading:
            rows = found[heading[1]] = []
        elif re.match(r" {10}", line) and rows:
            rows[-1] += " " + line.strip()
        elif re.match(r" {2,6}[^ ]", line) and rows is not found[""]:
            rows.append(line)
        elif line:
            rows = found[""]
            rows.append(line)
    return found


def told(row: str) -> tuple[str, str]:
    """Parts a row of a section into what it is of and what it says."""
    left, _, right = re.sub(r"^ +", "", row).partition("  ")
    return left, right.strip()


def words_of(name: str, text: str) -> tuple[Words, list[str]]:
    """Reads one help: its words, and the rows of its commands."""
    parts = sections(text)
    usage = next((line.removeprefix("Usage: ") for line in parts[""] if line.startswith("Usage: ")), "")
    options = []
    for row in parts.get("Options", []):
        left, said = told(row)
        found = OPTION.match(left)
        if not found or not (found[1] or found[2]):
            raise SystemExit(f"{name} --help: no option is understood in: {row}")
        options.append(Option([word for word in found.groups()[:2] if word], found[3], said))
    arguments = {}
    for row in parts.get("Arguments", []):
        left, said = told(row)
        arguments.update((name, said) for name in re.findall(r"\w+", left))
    plain = re.sub(r"^\w+ IMAGE [a-z]+ |\[-[^]]*\]|\[OPTIONS\]", "", usage)
    takes = list(dict.fromkeys(re.findall(r"\b[A-Z]+2?\b", plain) + list(arguments)))
    return Words(name, parts[""][0] if parts[""] else "", usage, options, takes, arguments), parts.get("Commands", [])


def help_of(program: str | pathlib.Path, *words: str) -> str:
    """Returns what a help prints."""
    run = subprocess.run([program, *words, "--help"], stdin=subprocess.DEVNULL, capture_output=True, text=True, check=False)
    if run.returncode or not run.stdout:
        raise SystemExit(f"{' '.join([program, *words])} --help: status {run.returncode}: {run.stderr.strip()}")
    return run.stdout


def of_program(program: str | pathlib.Path, name: str) -> tuple[Words, list[Words]]:
    """Returns the words of the program, and those of each of its commands in the order of the help."""
    whole, rows = words_of(name, help_of(program))
    rows = [told(row) for row in rows]
    commands = [words_of(f"{name} {command}", help_of(program, command))[0] for command, _ in rows]
    for (command, said), entry in zip(rows, commands):
        entry.name, entry.text = command, said
    return whole, commands
