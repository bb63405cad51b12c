"""What `bench/measure` measures of f11. The first line of a function says what; the command's help prints it."""
import os
import pathlib
from collections.abc import Iterator

from loads import DEBUGFS, KINDS, lines_of
from make_image import first_number
from measuring import Figure, Load, Room, has, table, target

LIMIT = ("--limit", "65536")


def mib(figure: Figure) -> str:
    """The peak in MiB."""
    return f"{figure.peak / 1024:.1f}"


def size_of(path: os.PathLike[str]) -> float:
    """The size of a file in KiB."""
    return os.path.getsize(path) / 1024


def mount(room: Room) -> None:
    """f11 IMAGE on 512 MiB with 10,000 files, beside cat, a plain reader and e2fsck"""
    tree = room.folder / "tree"
    image = room.large("--tree", tree)
    loads = {title: Load([program, image]) for title, program in room.f11.items()}
    loads["cat"] = Load(["sh", "-c", 'exec cat "$1" >/dev/null', "sh", image])
    if plain := room.compiled("plain_reader.rs"):
        loads["plain reader"] = Load([plain, image])
    if has("mke2fs", "e2fsck"):
        room.does("mke2fs", "-q", "-t", "ext2", "-d", tree, "ext2", str(int(size_of(image))))
        loads["e2fsck -fn, ext2"] = Load(["e2fsck", "-fn", "ext2"], may_fail=True)
    found = room.best(loads)
    rows = ((name, it.clock, it.processor, mib(it), it.status) for name, it in found.items())
    table(("best of the runs", "seconds", "processor", "peak MiB", "status"), *rows)
    wanted = (room.folder / "large.counts").read_text("utf-8").splitlines()
    for title in room.f11:
        said = [line for line in room.out(title).read_text("utf-8").splitlines() if line.startswith(("free ", "numbers "))]
        assert said == wanted, f"{title} prints {said}, not {wanted}"
        if plain:
            target(f"{title}: seconds to the plain reader's", found[title].clock / found["plain reader"].clock, 1.3)
            target(f"{title}: processor seconds to the plain reader's", found[title].processor / found["plain reader"].processor, 1.3)
        target(f"{title}: peak to the image's size", found[title].peak / size_of(image), 1.1)


# The kinds of loads with the sizes of their volumes, the counts of their sessions, and what is wanted to plain Rust.
SERVED = [(kind, size, 1) for kind in ("creates", "mixed", "extends", "blocks", "names") for size in (512, 65536)]
SERVED += [("views", 512, 1), ("views", 512, 8), ("creates", 65536, 8), ("mixed", 65536, 8)]
WANTED = {"names": 1.1}


def served(room: Room) -> None:
    """scripts of 60,000 commands, beside plain Rust and debugfs; reading and writing 512 MiB, beside cat"""
    title, program = next(iter(room.f11.items()))
    count = 600 if room.is_small else 60_000
    volumes = {512: room.volume(512, 16, 30), 65536: room.volume(65536, 2000, 2050)}
    one = room.script("one", ["STAT 1,1"])
    idle = {size: room.run("idle", Load([program, volume, one])).peak for size, volume in volumes.items()}
    plain, slower, theirs = room.compiled("plain_server.rs"), count // 10, dict[str, float]()
    has_ext2 = has("debugfs", "mke2fs")
    if has_ext2:
        (room.folder / "source").write_bytes(os.urandom(512))
        room.does("mke2fs", "-q", "-t", "ext2", "ext2", "32768")
    rows, beside = [], []
    for kind, size, sessions in SERVED:
        name = f"{kind}, {size} blocks, sessions: {sessions}"
        scripts = [room.script(kind, lines_of(KINDS[kind], count // sessions))] * sessions
        loads = {name: Load([program, volumes[size], *LIMIT, *scripts])}
        if plain and size == 512:
            loads["plain Rust"] = Load([plain, volumes[size], *scripts])
        if has_ext2 and kind in DEBUGFS and kind not in theirs:
            script = room.script("debugfs", lines_of(DEBUGFS[kind], slower))
            loads["debugfs"] = Load(["debugfs", "-w", "-f", script, "image"], lambda: room.copied("ext2"), may_fail=True)
        found = room.best(loads)
        own = found[name]
        if "debugfs" in found:
            theirs[kind] = slower / found["debugfs"].clock
        rate = count / own.clock
        times = f"{rate / theirs[kind]:.1f}" if kind in theirs else "-"
        rows.append((name, own.clock, own.processor, mib(own), int(rate), f"{(own.peak - idle[size]) / count:.2f}", int(theirs.get(kind, 0)), times))
        if "plain Rust" in found:
            other = found["plain Rust"]
            # What several sessions see of one another differs from run to run.
            assert sessions > 1 or room.out(name).read_bytes() == room.out("plain Rust").read_bytes(), f"{name}: plain Rust prints something else"
            beside.append((name, own.processor, other.processor, own.clock / other.clock, own.processor / other.processor, WANTED.get(kind, 2.0)))
    table((f"{title}: 200000 commands a second, 1.2 KiB each and 100 times debugfs are wanted", "seconds", "processor", "peak MiB", "commands/s", "KiB each",
           "debugfs/s", "times"), *rows)
    if beside:
        table(("beside plain Rust", "processor", "its processor", "times the clock", "times the processor", "at most"), *beside)
    written(room)


def written(room: Room) -> None:
    """a large image that is read, checked, changed and written"""
    title, program = next(iter(room.f11.items()))
    image, copy = room.large(), room.folder / "copy"
    three = room.script("three", ["CREATE A.TXT;1 1", "WRITE $ 1 48690d0a", "ENTER 4,4 A.TXT $"])
    loads = {
        "cat": Load(["sh", "-c", 'exec cat "$1" >"$2"', "sh", image, copy]),
        title: Load([program, image]),
        "--out": Load([program, image, "--out", copy]),
        "three lines": Load([program, image, three]),
        "three lines, --out": Load([program, image, three, "--out", copy]),
    }
    for load in loads.values():
        load.before = lambda: copy.unlink(missing_ok=True)
    if not room.is_small:
        loads["eleven Creates of 65,535 blocks"] = Load([program, image, *LIMIT, room.script("fills", lines_of(KINDS["fills"], 11))])
        loads["60,000 writes spread"] = Load([program, image, *LIMIT, room.script("spread", lines_of(KINDS["spread"], 60_000))])
    found = room.best(loads)
    table(("a large image", "seconds", "processor", "peak MiB"), *((name, it.clock, it.processor, mib(it)) for name, it in found.items()))
    room.run("--out", loads["--out"])
    room.does("cmp", image, copy)
    target("reading and writing to cat's seconds", found["--out"].clock / found["cat"].clock, 1.2)
    target("the same by processor seconds", found["--out"].processor / found["cat"].processor, 1.2)
    target("a script of three lines to a check, by processor seconds", found["three lines"].processor / found[title].processor, 1.3)
    for name in [*found][2:]:
        target(f"peak to the image's size, {name}", found[name].peak / size_of(image), 1.6 if "spread" in name else 1.1)


def counted(room: Room) -> None:
    """requests on volumes that are nearly full of blocks or of files, beside small ones, at most 1.3 times"""
    blocks, many, most = (20_000, 6_000, 7_000) if room.is_small else (1_000_000, 60_000, 65_535)
    rounds = 300 if room.is_small else 30_000
    empty = room.script("empty", ["STAT 1,1"])

    def volume(name: str, files: int, directories: int, words: str) -> pathlib.Path:
        return room.image(name, f"--scattered 0 --packed --files {files + directories + 5} --directories {directories} {words}")

    def of_files(files: int, directories: int, most: int) -> Iterator[str]:
        """A file is made, the last name of the last directory looked up, and the file deleted by its number, the least that is free."""
        first = first_number(most)
        last = first + directories + files - 1
        for number in range(last + 1, last + 1 + 2 * rounds // 3):
            yield from ("CREATE X. 1", f"LOOK {first + directories - 1},1 F{last:05}.DAT", f"DELETE {last + 1},{number - last}")

    creates = room.script("creates", ["CREATE X.DAT 1", "DELETE $"] * rounds)
    pairs = [
        ("CREATE of one block and DELETE, 4,096 blocks, nearly all free", volume("small", 1, 1, "--blocks 4096 --most-files 200 --held 210"), creates),
        (f"the first {blocks} blocks taken", volume("blocks", 100, 1, f"--blocks {blocks + 48576} --most-files 200 --held {blocks}"), creates),
        ("CREATE, LOOK, DELETE, 4,096 blocks, 2,000 files in one directory", volume("few", 2000, 1, "--blocks 4096 --most-files 2100 --held 2169"),
         room.script("few", of_files(2000, 1, 2100))),
        (f"{many} files in 30 directories", volume("many", many, 30, f"--blocks 200000 --most-files {most} --held 128000"),
         room.script("many", of_files(many, 30, most))),
    ]
    rows, base = [], dict[str, tuple[float, float]]()
    for at, (text, image, script) in enumerate(pairs):
        words = {f"{title} {it.stem}": [program, image, *LIMIT, it] for title, program in room.f11.items() for it in (script, empty)}
        found = room.best({name: Load(given) for name, given in words.items()})
        for title in room.f11:
            own, none = found[f"{title} {script.stem}"], found[f"{title} empty"]
            clock, processor = own.clock - none.clock, own.processor - none.processor
            base[title] = base[title] if at % 2 else (clock or 1.0, processor or 1.0)
            rows.append((f"{title}: {text}", clock, processor, clock / base[title][0], processor / base[title][1]))
    table(("The reading and the mount are taken away", "Seconds", "Processor", "Times the small volume, at most 1.3", "Processor"), *rows)


def extends(room: Room) -> None:
    """an Extend by one block of a file of 15,000 to 20,000 pieces, at most 2 microseconds"""
    volume = room.image("volume", "--blocks 65536 --files 7 --directories 1 --held 2050 --scattered 0 --most-files 2000")
    few, many = (room.script(f"{count}", ["CREATE X.DAT 0", *["EXTEND $ 1"] * count]) for count in (15_000, 20_000))
    loads = {(title, script): Load([program, volume, script, *LIMIT]) for title, program in room.f11.items() for script in (few, many)}
    found = room.best({f"{title}-{script.stem}": load for (title, script), load in loads.items()})
    for title in room.f11:
        took = (found[f"{title}-20000"].processor - found[f"{title}-15000"].processor) / 5000
        target(f"{title}: microseconds of processor an Extend", took * 1e6, 2)


def long_file(room: Room, held: int, pieces: int) -> pathlib.Path:
    """A volume whose file 7,1 has 60,000 blocks in so many pieces."""
    volume = f"--blocks 131072 --files 7 --directories 1 --most-files 300 --held {held}"
    return room.image("pieces", f"{volume} --scattered 1 --pieces {pieces} --scattered-blocks 60000")


def instructions(room: Room) -> None:
    """instructions of a create or delete of one block, a read, an Extend by one block, and a Truncate by one block"""
    if not has("valgrind"):
        return
    small = room.volume(4096, 16, 30)
    # 24,380 pieces are 239 headers of 102 pointers and one of 2.
    pieces = long_file(room, 60_358, 24_380)
    count = 40 if room.is_small else 2000
    truncates = [f"TRUNCATE 7,1 {left}" for left in range(59_999, 0, -1)]
    rows = [
        ("a create or delete of a file of one block", small, lambda number: lines_of(KINDS["creates"], number), count, 9500),
        ("a read of a block", small, lambda number: lines_of(KINDS["reads"], number), count, 7000),
        ("an Extend by one block", small, lambda number: lines_of(KINDS["extends"], number), count, 9000),
        ("a Truncate by one block of a file in 240 headers", pieces, lambda number: truncates[:number], count // 20, 12000),
    ]
    cells = []
    for text, image, lines, few, most in rows:
        # What a run takes before its first command is no part of a figure.
        less, more = (room.script(name, lines(number)) for name, number in (("few", few), ("many", 3 * few)))
        counts = [room.instructions(program, image, *LIMIT, more) - room.instructions(program, image, *LIMIT, less) for program in room.f11.values()]
        cells.append((text, *(number // (2 * few) for number in counts), most))
    table(("Instructions of a command", *room.f11, "At most"), *cells)


def names(room: Room) -> None:
    """a directory of 20,000 names that grows name by name: filling it, a LOOK in it, emptying it"""
    count = 200 if room.is_small else 20_000
    volume = room.image("volume", "--blocks 8192 --files 7 --directories 1 --held 2050 --scattered 0 --most-files 200")
    # Files 8 and 9 are the directory and the file that all its names mean.
    opened = ["CREATE D.DIR 0", "CREATE X.DAT 0"]
    filled = [*opened, *(f"ENTER 8,1 N{number}.D 9,1" for number in range(count))]
    mixed = [f"8,1 N{7919 * number % count}.D" for number in range(count)]
    scripts = {"opened": opened, "filled": filled, "looked": filled + [f"LOOK {it}" for it in mixed], "emptied": filled + [f"REMOVE {it}" for it in mixed]}
    paths = {name: room.script(name, lines) for name, lines in scripts.items()}
    found = room.best({f"{title}-{name}": Load([program, volume, path, *LIMIT]) for title, program in room.f11.items() for name, path in paths.items()})
    for title in room.f11:
        before, full, looked, emptied = (found[f"{title}-{name}"].processor for name in scripts)
        target(f"{title}: seconds in which {count} names are entered", full - before, 0.1)
        target(f"{title}: microseconds of a LOOK", (looked - full) / count * 1e6, 2)
        print(f"{title}: {emptied - full:.3f} s in which they are removed")


def truncate(room: Room) -> None:
    """a Truncate of 60,000 blocks in 200 headers beside its Delete, at most 2 times its instructions"""
    # 20,300 pieces of two or three blocks are 199 headers of 102 pointers and one of 2.
    image = long_file(room, 60_338, 20_300)
    lines = ["STAT 7,1", "DELETE 7,1", *(f"TRUNCATE 7,1 {left}" for left in (0, 1, 30_000, 59_999, 60_000))]
    scripts = {line: room.script(line.replace(" ", "-"), [line]) for line in lines}
    has_counts, rows = has("valgrind"), []
    for program in room.f11.values():
        found = room.best({line: Load([program, image, script]) for line, script in scripts.items()})
        counts = {line: room.instructions(program, image, script) if has_counts else 0 for line, script in scripts.items()}
        none, delete = lines[:2]
        for line in lines[1:]:
            times = f"{(counts[line] - counts[none]) / (counts[delete] - counts[none]):.2f}" if has_counts else "-"
            rows.append((f"`{line}`", f"{(counts[line] - counts[none]) / 1e6:.2f}", found[line].processor - found[none].processor, times))
    table(("The reading and the mount are taken away", "Million instructions", "Seconds of processor", "Times its Delete, at most 2"), *rows)
