"""Random trees for tests/trees: folders of the host, and files for a volume with their forms, owners, protections and dates.

Sizes are around the edges of blocks and records. A file for a volume knows what `put` is given and what the volume has then, by what the words mean.
"""
import dataclasses
import pathlib
import random

from fs_image import BLOCK, sequenced, variable

LETTERS = "ABCDEFGHIJKLMNOPQRSTUVWXYZ0123456789$"
SIZES = (0, 1, 2, 255, 510, 511, 512, 513, 1023, 1024, 1025, 1536, 5000)
LENGTHS = (0, 1, 2, 7, 40, 79, 80, 255, 256, 508, 509, 510, 511, 512, 513, 1022, 3000)
LONGEST = 32767
MONTHS = "JAN FEB MAR APR MAY JUN JUL AUG SEP OCT NOV DEC".split()
CONTROLS = {"none": 0, "ftn": 1, "cr": 2, "print": 4}
CONTIGUOUS = 0o200
KEEPER, RIGHTS = 0o401, 0o160000  # owner and protection of a new file
# Names that no file and no folder of a volume has; of a folder all that is in it is left out too.
BAD_FILES = ("long-name.c", "abcdefghij.txt", "a.text", "my_file.txt", "two.dots.txt", "a b.txt", "no.txt.0", "far.txt.32768", "a&b.txt", "50%.txt", ".hidden", "~", "é.txt")
BAD_FOLDERS = ("long-folder", "0,0", "8,9", "400,1", "fort.dir", "my-folder", ".git")
# Files of a host by their paths; a folder has no bytes.
Files = dict[str, bytes | None]


def is_text(data: bytes) -> bool:
    """Whether `put` makes records of these bytes by itself: then `get` gives them back."""
    if data == b"":
        return True
    lines = data.split(b"\n")
    return lines[-1] == b"" and max(map(len, lines)) <= LONGEST and all(not line.endswith(b"\r") for line in lines) and all(7 <= byte <= 13 or byte == 27 or 32 <= byte <= 126 for byte in data)


def text_lines(pick: random.Random) -> list[bytes]:
    """Lines of a text, some as long as a block or a record may be."""
    lines = [bytes(pick.choices(b"abc XYZ.,;\t\f", k=pick.choice(LENGTHS))) for _ in range(pick.choice((0, 1, 1, 2, 5, 12)))]
    if pick.random() < 0.03:
        lines.append(b"l" * pick.choice((LONGEST - 1, LONGEST)))
    return lines


def some_bytes(pick: random.Random) -> bytes:
    """The bytes of a file of the host: a text, one that is none by little, or a binary."""
    kind = pick.random()
    if kind < 0.4:
        return pick.randbytes(pick.choice((*SIZES, pick.randrange(3000))))
    data = b"".join(line + b"\n" for line in text_lines(pick))
    if kind < 0.5:
        return data[:-1]
    if kind < 0.6:
        return data.replace(b"\n", b"\r\n")
    return data + bytes([pick.choice((0, 7, 11, 27, 127, 255))]) + b"\n" if kind < 0.65 else data


def name_of(pick: random.Random) -> str:
    """A name and a type that a volume can have, and no directory."""
    title = "".join(pick.choices(LETTERS, k=pick.choice((1, 1, 2, 6, 9))))
    kind = "".join(pick.choices(LETTERS, k=pick.choice((0, 1, 2, 3, 3))))
    return f"{title}.{'TXT' if kind == 'DIR' else kind}"


def folder_of(pick: random.Random) -> str:
    """The name of a directory, of which there is none with these digits alone."""
    if pick.random() < 0.4:
        return f"{pick.randrange(1, 256):o},{pick.randrange(1, 256):o}"
    return pick.choice(LETTERS[:26]) + "".join(pick.choices(LETTERS, k=pick.choice((0, 1, 3, 8))))


def stamp_of(pick: random.Random) -> str:
    """A time of the years that an archive can say."""
    year = pick.choice((*range(71, 100), *range(60)))
    return f"{pick.randrange(1, 29):02}{pick.choice(MONTHS)}{year:02}{pick.randrange(24):02}{pick.randrange(60):02}{pick.randrange(60):02}"


def folders_of(pick: random.Random) -> list[tuple[str, ...]]:
    """The directories of a tree, each behind the one that it is in; the first is the tree's own."""
    found: list[tuple[str, ...]] = [()]
    for _ in range(pick.choice((1, 2, 4, 7))):
        inner = (*pick.choice(found), folder_of(pick))
        if inner not in found and len(inner) <= 4:
            found.append(inner)
    return found


def host_name(name: str, version: int | None = None) -> str:
    """The name that `get` gives a file of this name and type, and of this version where there are several."""
    return f"{name.lower()}.{version}" if version else name.lower().removesuffix(".")


@dataclasses.dataclass
class Form:
    """What `put` is given, and what the volume has then: the words, the bytes of the host, those of the volume, F.RTYP, F.RATT, F.RSIZ and what `get` writes."""

    words: list[str]
    given: bytes
    data: bytes
    kind: int
    control: int
    size: int
    got: bytes


def as_lines(words: list[str], given: bytes, lines: list[bytes]) -> Form:
    """A text."""
    return Form(words, given, variable(*lines), 2, 2, max(map(len, lines), default=0), b"".join(line + b"\n" for line in lines))


def as_bytes(words: list[str], given: bytes) -> Form:
    """Bytes as they are."""
    return Form(words, given, given, 1, 0, BLOCK, given)


def form_of(pick: random.Random) -> Form:
    """A random form."""
    how, given = pick.random(), some_bytes(pick)
    if how < 0.55:
        return as_lines([], given, given.split(b"\n")[:-1]) if is_text(given) else as_bytes([], given)
    if how < 0.65:
        return as_bytes(["-b"], given)
    lines = text_lines(pick)
    if how < 0.75:
        return as_lines(["-t"], b"\r\n".join(lines) + b"\r\n" * bool(lines), lines)
    longest = max(map(len, lines), default=0)
    control = pick.choice([*CONTROLS])
    if how < 0.85:
        size = pick.choice((0, longest, min(longest + 3, LONGEST)))
        data, got = variable(*lines), b"".join(line + b"\n" for line in lines)
        return Form(["-b", "--form", f"variable,{control},{size}"], data, data, 2, CONTROLS[control], size, got)
    if how < 0.9:
        lines = [line[:3000] for line in lines]
        data, got = sequenced(*enumerate(lines)), b"".join(line + b"\n" for line in lines)
        return Form(["-b", "--form", f"sequenced,{control},0"], data, data, 3, CONTROLS[control], 0, got)
    kind, size = pick.choice((("fixed", 1), ("undefined", 0), ("stream", 4))), pick.choice((1, 80, 512))
    return Form(["-b", "--form", f"{kind[0]},none,{size}"], given, given, kind[1], 0, size, given)


@dataclasses.dataclass
class Planned:
    """A file of a volume that is to be made."""

    folder: tuple[str, ...]
    name: str
    version: int
    form: Form
    flags: int
    owner: int
    rights: int
    stamp: str

    @property
    def path(self) -> str:
        """Its path, as the reader of volumes says it."""
        return f"[{'.'.join(self.folder) or '0,0'}]{self.name};{self.version}"

    @property
    def spelled(self) -> str:
        """Its path with slashes, as words say it."""
        return "/".join(("", *self.folder, f"{self.name};{self.version}"))


@dataclasses.dataclass
class Tree:
    """What a volume is to have: its directories, and its files in the order in which they are put."""

    folders: list[tuple[str, ...]]
    files: list[Planned]
    blocks: int

    def host(self, below: tuple[str, ...] = ()) -> Files:
        """The files and folders of the host that `get -r` makes of a directory."""
        depth = len(below)
        found: Files = {"/".join(folder[depth:]).lower(): None for folder in self.folders if folder[:depth] == below and folder != below}
        for file in self.files:
            if file.folder[:depth] == below:
                several = sum((other.folder, other.name) == (file.folder, file.name) for other in self.files) > 1
                name = host_name(file.name, file.version if several else None)
                found["/".join((*file.folder[depth:], name)).lower()] = file.form.got
        return found


def tree_of(pick: random.Random) -> Tree:
    """A random tree for a volume."""
    folders = folders_of(pick)
    stamps = [stamp_of(pick) for _ in range(3)]
    files: list[Planned] = []
    # Names that the host has.
    taken = {(folder[:-1], folder[-1].lower()) for folder in folders[1:]}
    for _ in range(pick.choice((1, 5, 12, 25))):
        folder, name = pick.choice(folders), name_of(pick)
        versions = pick.choice(((1,), (1,), (1,), (7,), (32767,), (1, 2), (3, 9, 32767)))
        names = {(folder, host_name(name, version if len(versions) > 1 else None)) for version in versions} | {(folder, host_name(name))}
        if names & taken:
            continue
        taken |= names
        for version in versions:
            form = form_of(pick)
            owner = pick.randrange(1, 256) << 8 | pick.randrange(1, 256) if pick.random() < 0.4 else KEEPER
            rights = pick.choice((0, 0xFFFF, 0o123456, 0xFE80)) if pick.random() < 0.4 else RIGHTS
            flags = CONTIGUOUS if form.data and pick.random() < 0.2 else 0
            files.append(Planned(folder, name, version, form, flags, owner, rights, pick.choice(stamps)))
    pick.shuffle(files)
    used = sum(-(-len(file.form.data) // BLOCK) for file in files)
    # Behind pieces of all sizes a run may be wanted that is as long as the longest file.
    return Tree(folders, files, 100 + 2 * used + 3 * len(files) + 2 * len(folders) + pick.randrange(100))


def host_tree(pick: random.Random) -> tuple[Files, set[str]]:
    """A random tree of the host, in letters of both cases, and the paths in it that no volume can have."""
    files: Files = {}
    bad = set()
    folders = folders_of(pick)

    def spelled(name: str) -> str:
        return pick.choice((name, name.lower(), name.lower(), name.title()))

    names = {folder: spelled(folder[-1]) for folder in folders if folder}

    def within(folder: tuple[str, ...], name: str) -> str:
        return "/".join([*(names[folder[: depth + 1]] for depth in range(len(folder))), name])

    for folder in folders[1:]:
        files[within(folder[:-1], names[folder])] = None
    for _ in range(pick.choice((1, 4, 10, 20))):
        folder, name = pick.choice(folders), name_of(pick)
        paths = {path.lower() for path in files}
        if any(path.startswith(within(folder, host_name(name)).lower()) for path in paths):
            continue
        several = pick.choice(((), (), (), (1, 2), (4, 32767)))
        for path in [f"{name}.{version}" for version in several if not name.endswith(".")] or [host_name(name)]:
            files[within(folder, spelled(path))] = some_bytes(pick)
    for _ in range(pick.choice((0, 0, 1, 3))):
        bad.add(within(pick.choice(folders), pick.choice(BAD_FILES)))
        if pick.random() < 0.5:
            bad.add(within(pick.choice(folders), pick.choice(BAD_FOLDERS)) + "/")
    return files, bad


def lay_host(folder: pathlib.Path, files: Files, bad: set[str]) -> None:
    """Makes a tree of the host."""
    folder.mkdir()
    for path, data in files.items():
        place = folder / path
        (place if data is None else place.parent).mkdir(parents=True, exist_ok=True)
        if data is not None:
            place.write_bytes(data)
    for path in bad:
        place = folder / path
        if path.endswith("/"):
            place.mkdir()
            place = place / "x.txt"
        place.write_bytes(b"left out\n")
