"""Volumes, directories, files and scripts of sizes at which a program could say that memory is wanting, and it is not."""
import subprocess

from fs_room import Disk, on


def made(room: Disk, size: int, *words: str) -> None:
    """Makes a volume of so many blocks with f11fs."""
    room.assertEqual(room.f11fs("large", "init", *words, str(size))[::2], (0, b""), "init")


def served(room: Disk, lines: list[str]) -> list[str]:
    """What f11 answers to a script on this volume, line by line; the volume that it leaves stands in its place."""
    (room.folder / "script").write_text("".join(f"{line}\n" for line in lines), "ascii")
    ran = subprocess.run([room.f11, "large", "script", "--limit", "65536"], cwd=room.folder, stdin=subprocess.DEVNULL,
            capture_output=True, timeout=300)
    room.assertEqual((ran.returncode, ran.stderr), (0, b""), "f11")
    return ran.stdout.decode("ascii").splitlines()


def accepted(replies: list[str]) -> int:
    """How many of the replies say that a request was accepted."""
    return sum(reply.startswith("OK") for reply in replies)


class Large(Disk):
    @on(None)
    def test_a_file_is_made_on_the_largest_volume(self) -> None:
        made(self, 1_048_576)
        self.assertEqual(accepted(served(self, ["CREATE A.TXT;1 1", "EXTEND $ 65535"])), 2, "CREATE and EXTEND")

    @on(None)
    def test_a_directory_of_4200_names_is_listed(self) -> None:
        made(self, 16_384, "--files", "4200")
        lines = [line for number in range(4200) for line in (f"CREATE N{number:05}.TXT;1 0", f"ENTER 4,4 N{number:05}.TXT $")]
        replies = served(self, [*lines, "LIST 4,4"])
        self.assertEqual((accepted(replies), sum(reply.startswith("N0") for reply in replies)), (8401, 4200), "the names")

    @on(None)
    def test_a_script_of_200000_lines_is_answered(self) -> None:
        made(self, 40)
        self.assertEqual(sum(reply.startswith("BAD") for reply in served(self, ["X"] * 200_000)), 200_000, "BAD")
        replies = served(self, ["STAT 4,4"] * 100_000)
        self.assertEqual((accepted(replies), sum(reply.startswith("NO 48 ") for reply in replies)), (65_536, 34_464), "OK, and NO behind the limit")

    @on(None)
    def test_a_file_grows_by_900_pieces(self) -> None:
        made(self, 4096, "--files", "1900")
        files = [f"CREATE F{number:05}.DAT;1 1" for number in range(6, 1906)]
        holes = [f"DELETE {number},1" for number in range(7, 1906, 2)]
        replies = served(self, [*files, *holes, "CREATE G.DAT;1 0", "EXTEND $ 900"])
        self.assertEqual(accepted(replies), len(files) + len(holes) + 2, "the requests")
