"""Runs the rows of tests/rows/ as tests: each in a folder of its own, beside the volumes that no command changes."""
import contextlib
import functools
import io
import os
import pathlib
import re
import subprocess
import tarfile
import time

import harness
from fs_image import changed
from fs_reader import Reader
from fs_room import OLD, STAMP, files_of
from fs_volumes import CONTENTS, volume_named
from row_files import ROWS, Files, Member, Row, Said, Step, make, rows_of

FORMS = {"ustar": tarfile.USTAR_FORMAT, "gnu": tarfile.GNU_FORMAT, "pax": tarfile.PAX_FORMAT}
# Commands whose files get dates, which have to be known.
DATED = {"put", "cp", "mkdir", "repair", "untar", "init"}


def fits(said: bytes, expected: list[Said], any_order: bool) -> bool:
    """Whether the bytes are some of those that are expected."""
    return any(one.fullmatch(said) is not None if isinstance(one, re.Pattern) else said == one or any_order and sorted(said.split(b"\n")) == sorted(one.split(b"\n"))
               for one in expected)


def shown(data: object) -> str:
    """What was said or expected, in a line."""
    return f"{data!r:.600}"


def packed(form: str, members: list[Member]) -> bytes:
    """An archive of these members."""
    stream = io.BytesIO()
    with tarfile.open(fileobj=stream, mode="w", format=FORMS[form]) as archive:
        for member in members:
            info = tarfile.TarInfo(member.path)
            info.size, info.mtime, info.pax_headers, (info.type, info.linkname) = len(member.data), 500_000_000, member.records, member.kind
            archive.addfile(info, io.BytesIO(member.data))
    return stream.getvalue()


def differs(said: bytes, members: list[Member]) -> list[str]:
    """Returns what of an archive is not as it is expected. It ends with two blocks of zeros, and nothing stands behind them."""
    wrong = []
    try:
        with tarfile.open(fileobj=io.BytesIO(said)) as archive:
            found = [(one, (archive.extractfile(one) or io.BytesIO()).read()) for one in archive.getmembers()]
    except (tarfile.TarError, ValueError) as error:
        return [f"no archive: {error}"]
    names = [one.name + "/" * one.isdir() for one, _ in found]
    if names != [member.path for member in members]:
        return [f"members {names}, not {[member.path for member in members]}"]
    for (one, data), member in zip(found, members):
        if not (one.isfile() or one.isdir()) or data != member.data:
            wrong.append(f"{one.name} has {shown(data)}, not {shown(member.data)}")
        records = {keyword: value for keyword, value in one.pax_headers.items() if keyword != "path"}
        if member.records and list(records.items()) != list(member.records.items()):
            wrong.append(f"{one.name} has the records {records}, not {member.records}")
        if member.stamp and one.mtime != (time.mktime(time.strptime(member.stamp, "%Y-%m-%d %H:%M:%S")) if member.stamp != "none" else 0):
            wrong.append(f"{one.name} has the time {one.mtime}, not {member.stamp}")
    if len(said) % 512 or said[-1024:] != bytes(1024) or found and said[-1536:-1024] == bytes(512):
        wrong.append("the archive has another end")
    return wrong


def accepted(f11: pathlib.Path, folder: pathlib.Path, name: str) -> bytes:
    """What f11 prints of an image, which it accepts."""
    ran = subprocess.run([f11, f"./{name}"], cwd=folder, stdin=subprocess.DEVNULL, capture_output=True, timeout=60)
    assert ran.returncode == 0, f"f11 refuses {name}: {ran.stdout!r} {ran.stderr!r}"
    return ran.stdout


def shared_by(row: Row) -> dict[str, bytes]:
    """The volumes beside the folder of a row that its commands name, as ../odd."""
    named = {word[3:] for step in row.steps for word in step.words if isinstance(word, str) and word.startswith("../")}
    return {name: data for name in named if (data := volume_named(name)) is not None}


class Judge:
    """Runs a row in a folder, which is made here."""

    def __init__(self, programs: pathlib.Path, folder: pathlib.Path, row: Row) -> None:
        self.programs, self.folder, self.row, self.here = programs, folder, row, Files()
        self.disk, self.out = folder / "disk", b""
        folder.mkdir()
        if row.lines:
            make(row.lines, programs, folder / "disk")
            self.here = {path: data for path, data in files_of(folder).items() if path != "disk"}
        elif row.image != "none" and (row.image or any("disk" in str(word).split() for step in row.steps for word in step.words)):
            self.disk.write_bytes(volume_named(row.image or "plain"))

    def run(self) -> None:
        """Runs each command; raises an AssertionError for what differs."""
        shared = shared_by(self.row)
        for step in self.row.steps:
            wrong = self.judge(step)
            assert not wrong, f"{step.words}: {'; '.join(wrong)}"
        for name, data in shared.items():
            place = self.folder.parent / name
            assert place.read_bytes() == data and place.stat().st_mtime == OLD, f"the image {name} was changed"

    def lay(self, step: Step) -> None:
        """Makes the files of the host that are there before the command."""
        before = {**step.before, **{path: packed(*archive) for path, archive in step.packs.items()}}
        for name, data in {**before, **{f"script.{number}": text.encode() for number, text in enumerate(step.scripts, 1)}}.items():
            place = self.folder / name
            (place if data is None else place.parent).mkdir(parents=True, exist_ok=True)
            if data is not None:
                place.write_bytes(data)
                os.utime(place, (OLD, OLD))
            self.here.update({str(above): None for above in pathlib.PurePath(name).parents if str(above) != "."}, **{name: data})
        for name in step.leaves:
            self.here.update({str(above): None for above in pathlib.PurePath(name).parents if str(above) != "."}, **{name: step.leaves[name]})
        for spoil in step.spoils:
            self.disk.write_bytes(changed(self.disk.read_bytes(), *spoil))
        self.before = None
        if self.disk.is_file():
            self.before = self.disk.read_bytes()
            os.utime(self.disk, (OLD, OLD))

    def judge(self, step: Step) -> list[str]:
        """Runs a command, and returns what differs."""
        self.lay(step)
        program, *words = step.words
        if program == "headers":
            ran = [subprocess.run([self.programs / "f11", "new", "--header", word], cwd=self.folder, capture_output=True, timeout=60) for word in words]
            out, err, status = b"".join(one.stdout for one in ran), b"".join(one.stderr for one in ran), 0
        else:
            stamp = ["--stamp", STAMP] if program == "f11fs" and "disk" in words and {*words} & DATED and "--stamp" not in words else []
            with open(step.into, "wb") if step.into else contextlib.nullcontext(subprocess.PIPE) as output:
                given = {"stdin": subprocess.DEVNULL} if step.input is None else {"input": step.input}
                env = {**os.environ, "PATH": f"{self.programs}:{os.environ['PATH']}", "STAMP": STAMP, "TOP": str(ROWS.parent.parent)}
                command = [program if program == "sh" else self.programs / program, *stamp, *words]
                said = subprocess.run(command, cwd=self.folder, env=env, stdout=output, stderr=subprocess.PIPE, timeout=120, **given)
            out, err, status = said.stdout or b"", harness.steady(said.stderr), said.returncode
        wrong, above, self.out = [], self.out, out
        if status not in step.statuses:
            wrong.append(f"status {status}, not {' or '.join(map(str, step.statuses))}")
        if step.archive is not None:
            wrong += differs(out, step.archive)
        elif not fits(out, [above] if step.as_above else step.outs, step.any_order):
            wrong.append(f"output {shown(out)}, not {shown(step.outs[0] if len(step.outs) == 1 else step.outs)}")
        if not fits(err, [step.err], False):
            wrong.append(f"error {shown(err)}, not {shown(step.err)}")
        return wrong or self.looked_at(step, out)

    def looked_at(self, step: Step, out: bytes) -> list[str]:
        """Returns what differs of the files of the host and of the volumes."""
        wrong, found = [], files_of(self.folder)
        written = step.writes or ("new" if step.words[0] == "f11" and "--out" in step.words and step.statuses == [0] else None)
        if written and written in found:
            self.here[written] = found[written]
        disk = {} if self.before is None or step.changes and not step.writes else {"disk": self.before}
        found = {path: data for path, data in found.items() if path != "disk" or path in disk}
        for path in sorted({*found, *self.here, *disk}):
            if found.get(path, 1) != {**self.here, **disk}.get(path, 1):
                wrong.append(f"{path} has {shown(found.get(path, 'no file'))}, not {shown({**self.here, **disk}.get(path, 'no file'))}")
        wrong += [f"{path} has {len(found.get(path) or b'')} bytes, not {size}" for path, size in step.sizes.items() if len(found.get(path) or b"") != size]
        wrong += [f"{path} was touched" for path, data in step.before.items() if data is not None and path not in {*step.leaves, step.writes} and (self.folder / path).stat().st_mtime != OLD]
        if disk and self.disk.stat().st_mtime != OLD:
            wrong.append("the image was touched")
        if not wrong and step.changes:
            wrong += self.changed(step, step.writes or "disk")
        if written == "new" and step.words[0] == "f11":
            totals = accepted(self.programs / "f11", self.folder, "new").partition(b"\n")[2]
            if out[out.index(b"free ") :] != totals:
                wrong.append(f"what was written has the totals {totals!r}")
        for lbn, place, data in step.places:
            at = 512 * lbn + place
            if (self.here["new"] or b"")[at : at + len(data)] != data:
                wrong.append(f"block {lbn} has {shown((self.here['new'] or b'')[at : at + len(data)])} at {place}, not {shown(data)}")
        return wrong

    def changed(self, step: Step, name: str) -> list[str]:
        """Returns what is not as expected in a volume that was changed; its rest is as before, or nothing of a new one."""
        image = (self.folder / name).read_bytes()
        accepted(self.programs / "f11", self.folder, name)
        if step.becomes is not None:
            return [] if image == step.becomes else [f"{name} has other bytes: {[at // 512 for at in range(0, len(image), 512) if image[at : at + 512] != step.becomes[at : at + 512]]}"]
        volume = Reader(image)
        old = Reader(self.before) if self.before and "init" not in step.words else None
        wanted = dict(old.contents() if old else {})
        for path, data in step.makes.items():
            if data is None:
                wanted.pop(path)
            else:
                wanted[path] = data
        were = {*old.directories} if old else {"[0,0]"}
        pairs = [("files of the volume", volume.contents(), wanted), ("new directories", sorted({*volume.directories} - were), sorted(step.has)),
                 ("directories that went", sorted(were - {*volume.directories}), sorted(step.lacks))]
        pairs += [(path, {name: getattr(volume.files[volume.paths[path]], name) for name in said}, said) for path, said in step.headers.items()]
        pairs += [(f"blocks of {path}", volume.raw(volume.files[volume.paths[path]]), data) for path, data in step.blocks.items()]
        if step.frees is not None and old:
            pairs.append(("free blocks", volume.free, old.free + step.frees))
        return [f"{what}: {shown(found)}, not {shown(expected)}" for what, found, expected in pairs if found != expected]


def content(name: str) -> bytes:
    """The bytes that a row calls by a name."""
    return volume_named(name.removeprefix("image:")) if name.startswith("image:") else CONTENTS[name]


def cases(programs: pathlib.Path, folder: pathlib.Path) -> list[harness.Given]:
    """The rows as tests in this folder, which gets the volumes that they look at."""
    rows = [row for name in ("reads", "changes", "edges", "f11") for row in rows_of(name, content)]
    for name, data in {name: data for row in rows for name, data in shared_by(row).items()}.items():
        (folder / name).write_bytes(data)
        os.utime(folder / name, (OLD, OLD))

    def judged(place: int, row: Row, case: harness.Given) -> None:
        Judge(programs, folder / f"row.{place}", row).run()

    return [harness.Given(row.name, functools.partial(judged, place, row)) for place, row in enumerate(rows)]
