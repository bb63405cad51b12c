"""Reads a sound volume by itself, by fs_loose.py, which shares nothing with the program.

`Reader(image)` has `files` by number and `paths`, the number of the file at each path of the master directory and of the directories in it. It
refuses, by an AssertionError, what no sound volume has: blocks held twice or marked free, headers with a wrong sum, names of no file.
"""
import struct

from fs_loose import BLOCK, Found, Loose, text_of, words


class File:
    """A file: what its header says, its blocks in order, and its bytes up to the end of file."""

    def __init__(self, volume: Loose, found: Found) -> None:
        header = volume.header(found.number)
        self.number, self.sequence, _level, self.owner, self.protection, self.flags = words(header, 2, 6)
        self.attributes = header[14:46]
        self.kind, self.control, self.size = struct.unpack_from("<BBH", header, 14)
        high, low, end_high, end_low, self.rest = words(header, 18, 5)
        self.highest, self.end_block = high << 16 | low, end_high << 16 | end_low
        self.name = text_of(found.name)
        self.revised, self.created = header[58:71], header[71:84]
        self.headers, self.blocks = [*found.headers], [*(found.blocks or ())]

    @property
    def end(self) -> int:
        return 0 if self.end_block == 0 else (self.end_block - 1) * BLOCK + self.rest


class Reader:
    """A volume."""

    def __init__(self, image: bytes) -> None:
        assert len(image) % BLOCK == 0
        volume = Loose(image)
        self.image, self.block, self.header, self.bits, self.most_files = image, volume.block, volume.header, volume.first, volume.most_files
        for at in (29, 255):
            assert sum(words(self.block(1), 0, at)) & 0xFFFF == words(self.block(1), 2 * at, 1)[0], "the home block's sum"
        missing = [number for number in volume.missing() if number <= self.most_files]
        assert not missing, f"numbers {missing} are in use and have no valid header"
        assert not volume.faults(), f"faults: {volume.faults()}"
        self.index_blocks, self.free = [*volume.index], sum(volume.free)
        self.files = {number: File(volume, found) for number, found in volume.files.items()}
        self.paths: dict[str, int] = {}
        self.directories: dict[str, int] = {}
        self.add_directory("[0,0]", 4)

    def raw(self, file: File) -> bytes:
        return b"".join(map(self.block, file.blocks))

    def data(self, path: str) -> bytes:
        """The bytes of the file at this path, up to its end."""
        file = self.files[self.paths[path]]
        return self.raw(file)[: file.end]

    def records(self, path: str) -> list[bytes]:
        """The records of the file at this path, where it has variable ones."""
        data, at, all_records = self.data(path), 0, []
        while at < len(data):
            length = words(data, at, 1)[0]
            assert at + 2 + length <= len(data), f"{path}: a record past the end"
            all_records.append(data[at + 2 : at + 2 + length])
            at += 2 + length + length % 2
        return all_records

    def add_directory(self, folder: str, number: int) -> None:
        file = self.files[number]
        self.directories[folder] = number
        data = self.raw(file)
        for at in range(0, file.end, 16):
            entry = words(data, at, 8)
            if entry[0] == 0:
                continue
            name = text_of(entry[3:])
            assert f"{folder}{name}" not in self.paths, f"{folder}{name} is there twice"
            self.paths[f"{folder}{name}"] = entry[0]
            found = self.files.get(entry[0])
            if found is None or found.sequence != entry[1]:
                continue
            title, kind = name.split(";")[0].split(".")
            if kind == "DIR" and found.number not in self.directories.values():
                inner = f"{int(title[:3], 8):o},{int(title[3:], 8):o}" if title.isdigit() and len(title) == 6 else title
                inner = inner if folder == "[0,0]" else f"{folder[1:-1]}.{inner}"
                self.add_directory(f"[{inner}]", found.number)

    def contents(self) -> dict[str, bytes]:
        """The bytes of the file at each path, but of the reserved files and directories."""
        return {path: self.data(path) for path, number in self.paths.items() if number > 5 and number not in self.directories.values() and number in self.files}
