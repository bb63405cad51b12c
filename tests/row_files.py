"""Reads the rows of tests/rows/: transcripts of f11fs and f11, each in a folder of its own, with what has to come of every command.

A file begins with what it is about. Then each line says by its first word what it is; a blank line ends a row, and a line that begins with # says nothing:

    == NAME                  a row, and its name; rows with no blank line between them share what stands below their first commands
    each VALUE..             the row is there for each value of such lines: in its lines {} is the value, {0} its first word, and {1}, {2} .. its parts
                             between bars
    image NAME               the volume that is called disk is this one of fs_volumes.py; without this line it is the plain one; none for no image
    : LINE                   a line of sh that makes disk, with the functions of examples/common.sh; v40, v512 and file are short for some
    $ f11fs IMAGE WORD..     a command, quoted as for a shell; \\xHH is a byte that is no text. f11 is the other program
    $ headers N..            what f11 says of these headers of the file `new`
    % LINE                   a line of sh -e in the folder, with the programs f11fs and f11, and a date in STAMP; such lines below one another are a script

What stands below a command is of that command; commands with no line between them share it:

    status N..               its status, or one of these, where that is not 0
    > TEXT                   a line that it prints; + TEXT goes on with the line above; >* N TEXT stands for N lines, in which # is their number
    or                       what follows is another output, which may come as well
    ! TEXT                   a line of its errors
    >~ PATTERN, !~ PATTERN   a pattern of all that it prints, or of all errors
    >= CONTENT               all that it prints, where that is no text of lines
    as above                 it prints what the command above printed
    any order                its lines are printed in any order
    archive                  it prints an archive of tar, with just these members in this order, by Python's tarfile:
    packs PATH FORM          an archive of the host that is there before, by tarfile, with the members that follow; FORM is ustar, gnu or pax
    member PATH = CONTENT    a member, with these bytes; member PATH/ = "" a directory
    record KEYWORD=VALUE     a record of the member above; those that stand here are all that it has
    time STAMP               the local time of the member above
    type HEX WORD            the type of the member above, and the target of a link
    into FILE                what it prints goes into this file
    input CONTENT            what it reads from standard input
    < TEXT                   a line of the file script.1, which is there before; <* N TEXT stands for N lines
    script                   what follows is script.2, and so on
    with PATH = CONTENT      a file of the host that is there before; with PATH/ a folder
    spoil LBN PLACE HEX      what disk has before it at a place of a block, whose last word becomes the sum of a header
    leaves PATH = CONTENT    a file of the host that is there behind it, besides those; leaves PATH/ a folder
    size PATH N              how many bytes a file of the host has then

and of a command that changes the volume; one that has none of these lines leaves the image as it was, its times too:

    makes PATH = CONTENT     a file of the volume that is another, or a new one
    removes PATH             a file of the volume that goes
    header PATH NAME=WORD..  what the header of a file says
    blocks PATH = CONTENT    what the blocks of a file have, with what stands behind its end
    directory PATH           a directory that comes; no directory PATH one that goes
    frees N                  how many blocks become free
    becomes CONTENT          the image has these bytes
    writes FILE              the volume that these lines speak of is in this new file, and disk is left as it was
    bytes LBN PLACE HEX      what the file `new` has at a place of a block

A CONTENT is a text in double quotes with the escapes of Python, or a name of fs_volumes.CONTENTS; image:NAME is a volume, NAME[:N] are the first N bytes.
CONTENT * N is this N times, and CONTENT + CONTENT one behind the other.
"""
import ast
import dataclasses
import os
import pathlib
import re
import shlex
import subprocess
from collections.abc import Callable

ROWS = pathlib.Path(__file__).resolve().parent / "rows"
# For the lines of sh that make an image of f11.
MAKING = """here="$TOP/examples"; image=$IMAGE; folder=$PWD; . "$here/common.sh"; top=$PROGRAMS; cd "$folder" || exit 1
v40() { make_volume "$image"; }; v512() { make_large "$image"; }; file() { header "$image" "$@"; }
"""
# A part of a CONTENT, and how often it is there.
PART = re.compile(r'("(?:[^"\\]|\\.)*"|[^\s"]+)(?: \* (\d+))?(?: \+ |$)')
# What a command prints, or writes to standard error: bytes, or a pattern of the whole.
Said = bytes | re.Pattern[bytes]
# Files of a host by their paths; a folder has no bytes.
Files = dict[str, bytes | None]
Header = dict[str, int | str | bytes | list[int]]
Contents = Callable[[str], bytes]
# The words of a header that are numbers; owner, protection and flags are octal.
NUMBERS = {"number": 10, "kind": 10, "control": 10, "size": 10, "highest": 10, "end": 10, "sequence": 10, "owner": 8, "protection": 8, "flags": 8}


@dataclasses.dataclass
class Member:
    """A member of an archive: its path, its bytes, its records, its local time where that is said, and its type with the target of a link."""

    path: str
    data: bytes
    records: dict[str, str] = dataclasses.field(default_factory=dict)
    stamp: str | None = None
    kind: tuple[bytes, str] = (b"0", "")

    def __post_init__(self) -> None:
        if self.path.endswith("/"):
            self.kind = b"5", ""


@dataclasses.dataclass
class Step:
    """A command with what comes of it, as the lines above say it."""

    words: list[str | bytes]
    statuses: list[int] = dataclasses.field(default_factory=lambda: [0])
    outs: list[Said] = dataclasses.field(default_factory=lambda: [b""])
    err: Said = b""
    any_order: bool = False
    as_above: bool = False
    archive: list[Member] | None = None
    packs: dict[str, tuple[str, list[Member]]] = dataclasses.field(default_factory=dict)
    members: list[Member] = dataclasses.field(default_factory=list)
    into: str | None = None
    input: bytes | None = None
    scripts: list[str] = dataclasses.field(default_factory=list)
    before: Files = dataclasses.field(default_factory=dict)
    spoils: list[tuple[int, int, bytes]] = dataclasses.field(default_factory=list)
    leaves: Files = dataclasses.field(default_factory=dict)
    sizes: dict[str, int] = dataclasses.field(default_factory=dict)
    changes: bool = False
    makes: Files = dataclasses.field(default_factory=dict)
    blocks: Files = dataclasses.field(default_factory=dict)
    headers: dict[str, Header] = dataclasses.field(default_factory=dict)
    has: list[str] = dataclasses.field(default_factory=list)
    lacks: list[str] = dataclasses.field(default_factory=list)
    frees: int | None = None
    becomes: bytes | None = None
    writes: str | None = None
    places: list[tuple[int, int, bytes]] = dataclasses.field(default_factory=list)


@dataclasses.dataclass
class Row:
    """Commands one behind another on an image, in a folder."""

    name: str
    steps: list[Step] = dataclasses.field(default_factory=list)
    image: str = ""
    lines: list[str] = dataclasses.field(default_factory=list)


def word_of(word: str) -> str | bytes:
    """Returns a word of a command: bytes where it is no text."""
    parts = re.split(r"\\x([0-9a-f]{2})", word)
    return word if len(parts) == 1 else b"".join(bytes.fromhex(part) if at % 2 else part.encode() for at, part in enumerate(parts))


def header_of(words: list[str]) -> Header:
    """Returns what a header says, by the names of its words."""
    found: Header = {}
    for name, _, value in (word.partition("=") for word in words):
        if name in ("blocks", "headers"):
            found[name] = [int(lbn) for lbn in value.split(",") if lbn]
            continue
        found[name] = int(value, NUMBERS[name]) if name in NUMBERS else value if name == "name" else bytes.fromhex(value) if name == "attributes" else value.encode()
    return found


def spot_of(lbn: str, place: str, data: str) -> tuple[int, int, bytes]:
    """Returns a block, a place of it and bytes."""
    return int(lbn), int(place), bytes.fromhex(data)


class Reader:
    """Reads the rows of a file."""

    def __init__(self, path: pathlib.Path, contents: Contents) -> None:
        self.contents, self.rows = contents, list[Row]()
        self.group: list[Row] = []  # the rows that the lines here speak of
        for number, line, begins in lines_of(path.read_bytes().decode()):
            if begins:
                self.end()
            try:
                self.read(*line.partition(" ")[::2])
            except (KeyError, ValueError, TypeError, AttributeError, SyntaxError, IndexError) as error:
                raise ValueError(f"{path}:{number}: {line!r} is no line of a row: {error}") from error
        self.end()

    def end(self) -> None:
        """Ends the rows that share what was read."""
        self.rows += self.group
        self.group, self.shared, self.last = [], list[Step](), "=="

    def read(self, word: str, rest: str) -> None:
        """Reads a line."""
        last, self.last = self.last, word
        if word == "==":
            self.group.append(Row(rest))
            if len(self.group) > 1:
                self.group[-1].image, self.group[-1].lines = self.group[0].image, self.group[0].lines
        elif word == "image":
            for row in self.group:
                row.image = rest
        elif word == ":":
            self.group[-1].lines.append(rest)
        elif word == "$":
            program, *words = shlex.split(rest)
            if program not in ("f11fs", "f11", "headers"):
                raise ValueError("a command is one of f11fs or f11")
            self.add_step([program, *map(word_of, words)], last)
        elif word == "%" and last == "%":
            for step in self.shared:
                step.words = [*step.words[:-1], f"{step.words[-1]}\n{rest}"]
        elif word == "%":
            self.add_step(["sh", "-e", "-c", rest], last)
        elif not self.shared:
            raise ValueError("a command stands below a name")
        else:
            for step in self.shared:
                self.add(step, word, rest)

    def add_step(self, words: list[str | bytes], last: str) -> None:
        """Adds a command: to the row whose name stands above, which shares what follows with the rows before it; or behind others, to all rows."""
        if not self.group[-1].steps:
            self.group[-1].steps.append(Step(words))
            self.shared.append(self.group[-1].steps[-1])
            return
        if last != "$":
            self.shared = []
        for row in self.group:
            row.steps.append(Step(words))
            self.shared.append(row.steps[-1])

    def content_of(self, text: str) -> bytes:
        """Returns the bytes that a sum of texts in quotes and names stands for."""
        parts = list(PART.finditer(text))
        if "".join(part[0] for part in parts) != text:
            raise ValueError("a content is a sum of texts in quotes and names")
        return b"".join(self.part_of(part[1]) * int(part[2] or 1) for part in parts)

    def part_of(self, text: str) -> bytes:
        """Returns the bytes that a text in quotes or a name stands for."""
        if text.startswith('"'):
            return ast.literal_eval(f"b{text}")
        name, _, end = text.partition("[:")
        return self.contents(name)[: int(end.removesuffix("]")) if end else None]

    def file_of(self, text: str) -> tuple[str, bytes | None]:
        """Returns a path with its bytes, or a folder."""
        path, found, content = text.partition(" = ")
        return (path, self.content_of(content)) if found else (path.removesuffix("/"), None)

    def add(self, step: Step, word: str, rest: str) -> None:
        """Adds to a command what a line says."""
        step.changes |= word in CHANGES
        if word in (">", "!"):
            self.say(step, word, f"{rest}\n".encode())
        elif word == "+":
            self.last = self.said
            self.say(step, self.said, f"{rest}\n".encode(), joined=True)
        elif word in (">*", "<*"):
            count, _, text = rest.partition(" ")
            self.add(step, word[0], "\n".join(text.replace("#", str(number)) if word == ">*" else text for number in range(1, int(count) + 1)))
        elif word in (">~", "!~"):
            self.say(step, word[0], re.compile(rest.encode()))
        elif word == ">=":
            step.outs[-1] = self.content_of(rest)
        elif word == "<":
            step.scripts = step.scripts or [""]
            step.scripts[-1] += f"{rest}\n"
        elif (word, rest) in (("any", "order"), ("as", "above")):
            setattr(step, f"{word}_{rest}", True)
        elif word == "archive":
            step.archive = step.members = []
        elif word == "packs":
            path, form = rest.split(" ")
            step.packs[path] = form, (members := [])
            step.members = members
        elif word == "record":
            step.members[-1].records.update([rest.split("=", 1)])
        elif word == "time":
            step.members[-1].stamp = rest
        elif word == "type":
            kind, _, target = rest.partition(" ")
            step.members[-1].kind = bytes.fromhex(kind), target
        elif word == "header":
            path, *words = rest.split(" ")
            step.headers.setdefault(path, {}).update(header_of(words))
        elif word in SET:
            part, read = SET[word]
            setattr(step, part, read(self, rest))
        elif word in APPENDED:
            part, read = APPENDED[word]
            getattr(step, part).append(read(self, rest))
        else:
            part, read = UPDATED[word]
            getattr(step, part).update([read(self, rest)])

    def say(self, step: Step, sign: str, said: Said, joined: bool = False) -> None:
        """Adds to what a command prints, or to its errors."""
        self.said = sign
        old = step.outs[-1] if sign == ">" else step.err
        if not isinstance(said, re.Pattern):
            if isinstance(old, re.Pattern):
                raise ValueError("a pattern is of the whole")
            said = (old.removesuffix(b"\n") if joined else old) + said
        if sign == ">":
            step.outs[-1] = said
        else:
            step.err = said


# Lines that set a part of a command, that add to a list, and that add to a dictionary: the part, and what is read of the rest of the line.
SET = {
    "status": ("statuses", lambda _, rest: [int(status) for status in rest.split()]),
    "into": ("into", lambda _, rest: rest),
    "input": ("input", Reader.content_of),
    "frees": ("frees", lambda _, rest: int(rest)),
    "becomes": ("becomes", Reader.content_of),
    "writes": ("writes", lambda _, rest: rest),
}
APPENDED = {
    "or": ("outs", lambda _, rest: b""),
    "member": ("members", lambda reader, rest: Member(*reader.file_of(rest))),
    "script": ("scripts", lambda _, rest: ""),
    "bytes": ("places", lambda _, rest: spot_of(*rest.split())),
    "spoil": ("spoils", lambda _, rest: spot_of(*rest.split())),
    "directory": ("has", lambda _, rest: rest),
    "no": ("lacks", lambda _, rest: re.fullmatch("directory (.*)", rest)[1]),
}
UPDATED = {
    "with": ("before", Reader.file_of),
    "leaves": ("leaves", Reader.file_of),
    "size": ("sizes", lambda _, rest: (rest.rpartition(" ")[0], int(rest.rpartition(" ")[2]))),
    "makes": ("makes", Reader.file_of),
    "blocks": ("blocks", Reader.file_of),
    "removes": ("makes", lambda _, rest: (rest, None)),
}
# Lines of what becomes of the volume.
CHANGES = {"makes", "removes", "header", "blocks", "directory", "no", "frees", "becomes", "writes"}


def lines_of(text: str) -> list[tuple[int, str, bool]]:
    """Returns the lines that say something, with their numbers and whether one is the first of a group; a group with `each` is there for each value."""
    lines = list(enumerate(text.split("\n"), 1))
    lines = lines[next((at for at, (_, line) in enumerate(lines) if line.startswith("== ")), len(lines)) :]
    found, group = [], list[tuple[int, str]]()
    for number, line in [*lines, (0, "")]:
        if line:
            group.append((number, line))
            continue
        for value in [value for _, line in group if line.startswith("each ") for value in shlex.split(line[5:])] or [None]:
            kept = [(at, line) for at, line in group if not line.startswith(("#", "each "))]
            found += [(at, line if value is None else filled(line, value), place == 0) for place, (at, line) in enumerate(kept)]
        group = []
    return found


def filled(line: str, value: str) -> str:
    """Returns a line of a row that is there for each value: the name has the value behind it."""
    if line.startswith("== ") and "{" not in line:
        return f"{line}: {value}"
    for number, part in enumerate(value.split("|"), 1):
        line = line.replace(f"{{{number}}}", part)
    return line.replace("{}", value).replace("{0}", value.partition(" ")[0])


def rows_of(folder: str, contents: Contents) -> list[Row]:
    """Returns the rows of the files of a folder of tests/rows."""
    rows = [row for path in sorted((ROWS / folder).glob("*.rows")) for row in Reader(path, contents).rows]
    if not rows:
        raise ValueError(f"{ROWS / folder} has no rows")
    return rows


def make(lines: list[str], programs: pathlib.Path, image: pathlib.Path) -> None:
    """Makes an image by the lines of sh of a row, in its folder and with the f11 of another."""
    how = {**os.environ, "TOP": str(ROWS.parent.parent), "PROGRAMS": str(programs), "IMAGE": image.name}
    subprocess.run(["sh", "-c", MAKING + "\n".join(lines)], env=how, cwd=image.parent, check=True, stdin=subprocess.DEVNULL)


def f11_row(name: str) -> tuple[list[str], list[str], list[str]]:
    """Returns of a row of f11 the lines that make its image, the words for f11 beside the image, the scripts and --out, and its scripts."""
    [row] = [row for row in rows_of("f11", lambda name: b"") if row.name == f"f11: {name}"]
    words = [word for word in row.steps[0].words[2:] if isinstance(word, str) and word not in ("--out", "new") and not word.startswith("script.")]
    return row.lines, words, row.steps[0].scripts
