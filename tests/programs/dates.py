"""put and get with -p, and without it, where the date of a file is the time of the run. rows/edges/dates.rows has the other dates."""
import datetime
import os
import time

from fs_room import Disk, on
from fs_volumes import DAY, plain_volume

EAST = {**os.environ, "TZ": "XYZ-13:30"}  # thirteen and a half hours east
ZONE = datetime.timezone(datetime.timedelta(hours=13, minutes=30))


def stamps(early: int) -> list[str]:
    """The stamps in the zone of each second from this one on until now."""
    return [f"{datetime.datetime.fromtimestamp(second, ZONE):%d%b%y%H%M%S}".upper() for second in range(early, int(time.time()) + 1)]


class Dates(Disk):
    def is_of_the_run(self, path: str, *words: str, name: str = "a.txt", **more: object) -> None:
        """A file that is put by these words is of the run, whatever the time of the host file is."""
        self.write({name: b"a\n"})
        os.utime(self.folder / name, (920_730_906, 920_730_906))
        early = int(time.time())
        self.assertEqual(self.does("disk", "put", *words, env=EAST, **more), b"")
        self.assertIn(self.file(path).created.decode(), stamps(early))

    def test_put_without_p(self) -> None:
        self.is_of_the_run("[0,0]A.TXT;1", "a.txt")

    def test_put_of_standard_input(self) -> None:
        self.is_of_the_run("[0,0]A.TXT;1", "-p", "-", "A.TXT", name="-", input=b"a\n")

    def test_put_of_a_directory(self) -> None:
        self.is_of_the_run("[0,0]NEW.DIR;1", "-r", "-p", "tree", "NEW", name="tree/a.txt")

    def gets(self, *words: str) -> None:
        early = int(time.time())
        self.assertEqual(self.does("disk", "get", *words, "1,2/NOTES.TXT", "plain", env=EAST), b"")
        self.assertTrue(early <= (self.folder / "plain").stat().st_mtime <= time.time())

    def test_get_without_p(self) -> None:
        self.gets()

    @on(lambda: plain_volume(dates=bytes(13) + DAY).bytes())
    def test_get_of_a_file_without_a_date(self) -> None:
        self.gets("-p")
