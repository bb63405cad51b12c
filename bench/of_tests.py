"""What `bench/measure` measures by tests of the repository, which tests_program proves and builds first. The help prints a function's first line."""
import os
import re
import resource
import subprocess
import time
from collections.abc import Iterable

from measuring import HERE, Load, Room, target

KINDS = ("creates_and_deletes", "extends", "reads_and_writes", "names_of_a_long_directory")
VOLUMES = ("small_volume", "volume_of_512_blocks", "files_of_several_headers", "almost_full_volume", "large_volume", "numbers_near_the_last_sequence")


def program_of(*words: str) -> str:
    """The program of these tests, proved and built."""
    return subprocess.run([HERE / "tests_program", *words], check=True, stdout=subprocess.PIPE, text=True).stdout.strip()


def said_by(program: str, test: str, trials: int, viewers: int = 1) -> str:
    """What a test prints."""
    how = {**os.environ, "TRIALS": str(trials), "VIEWERS": str(viewers)}
    return subprocess.run([program, test], env=how, check=True, stdout=subprocess.PIPE, text=True).stdout


def timed(module: str, names: Iterable[str], trials: int) -> None:
    """Prints the seconds of each of these tests."""
    program = program_of("requests", module)
    for name in names:
        begin = time.monotonic()
        said_by(program, f"requests::{module}::{name}", trials)
        print(f"{name}: {time.monotonic() - begin:.3f} s")


def requests(_: Room) -> None:
    """60,000 requests of each kind on a volume in memory, without a program around them"""
    timed("timed", KINDS, 1000)


def random_requests(_: Room) -> None:
    """20,910 random requests of all kinds on volumes of 40, 512 and 4,200 blocks, beside the plain program"""
    timed("random", VOLUMES, 17)


def numbers(said: str, pattern: str) -> list[int]:
    """The numbers of what a test has printed that matches."""
    return [int(word) for word in re.findall(r"\d+", re.findall(pattern, said)[0])]


def views(room: Room) -> None:
    """views beside a thread that writes, eight viewers beside one, a view beside a look, the memory and the clock of scripts

    8 viewers and a writer are 9 threads. On 4 processors a viewer is set aside now and then within a view, and the writer then waits for it,
    awake: the clock measures the system's turns too. Two measures leave those out: 8 viewers to 1 by the second of processor, the writer's
    included, times 4; and by the clock as many viewers as leave the writer a processor, to 1.
    """
    tests, module = program_of("sessions", "timed_views"), "sessions::timed_views::"
    rates: dict[int, tuple[float, float]] = {}
    few = min(8, max(1, (os.cpu_count() or 1) - 1))
    for viewers in (1, 8, few):
        runs = []
        for _ in range(room.runs):
            before = resource.getrusage(resource.RUSAGE_CHILDREN)
            said = said_by(tests, f"{module}views_beside_a_writer", 10_000 // viewers, viewers)
            after = resource.getrusage(resource.RUSAGE_CHILDREN)
            count, took, writes = numbers(said, r"\d+ views, \d+ microseconds, \d+ writes")
            runs.append((count / took * 1e6, count / (after.ru_utime + after.ru_stime - before.ru_utime - before.ru_stime), writes))
        rates[viewers] = max(run[0] for run in runs), max(run[1] for run in runs)
        writes = sum(run[2] for run in runs) // len(runs)
        print(f"{viewers} viewers: {rates[viewers][0]:.0f} views a second, {rates[viewers][1]:.0f} a second of processor, {writes} writes beside them")
    clock, processor = rates[8][0] / rates[1][0], 4 * rates[8][1] / rates[1][1]
    print(f"8 viewers to 1, at least 3 is wanted: {clock:.2f} by the clock, {processor:.2f} by the second of processor, on 4")
    print(f"{few} viewers to 1, by the clock, for each viewer: {rates[few][0] / rates[1][0] / few:.2f}, at least 0.9 is wanted")
    # Runs of some 3 ms: other work seldom breaks them.
    pattern = r"\d+ looks, \d+ microseconds; \d+ views, \d+ microseconds"
    costs = [numbers(said_by(tests, f"{module}a_view_beside_a_look", 200), pattern) for _ in range(8 * room.runs)]
    target("a view to a look", min(it[3] / it[2] for it in costs) / min(it[1] / it[0] for it in costs), 2)
    views_of_f11(room)


def views_of_f11(room: Room) -> None:
    """the memory of a script, and eight scripts of 45,000 views beside one session with all of them"""
    for program in room.f11.values():
        image = room.image("image", "--blocks 262144 --held 65536")
        peak = room.run("script", Load([program, image, room.script("one", ["STAT 1,1"])])).peak
        target("f11's peak to the image's size", peak / 131072, 1.1)
        # A script has room for some 70,000 views, so eight times the clock of one script stands for one session with all.
        small, script = room.volume(512, 16, 30), room.script("views", ["VIEW STAT 1,1"] * 45_000)
        found = room.best({f"{count} scripts": Load([program, small, *[script] * count]) for count in (1, 8)})
        target("eight scripts of views to one session with all, by the clock", found["8 scripts"].clock / found["1 scripts"].clock / 8, 0.4)
