"""What `bench/measure` measures of f11fs. The first line of a function says what; the command's help prints it."""
import os
import random
import shutil

from measuring import Figure, Load, Room, has, table, target


def host_files(room: Room, name: str, count: int, size: int) -> list[str]:
    """Makes a folder of so many files of the host; their paths."""
    chance, paths = random.Random(size), [f"{name}/{name[0]}{place:05}.dat" for place in range(count)]
    (room.folder / name).mkdir()
    for path in paths:
        (room.folder / path).write_bytes(chance.randbytes(size))
    return paths


def fresh(room: Room, name: str) -> None:
    """An image to work on, and an empty folder; what was written before is on the disk, so that no run pays for another."""
    shutil.rmtree(room.folder / "tree", ignore_errors=True)
    room.copied(name)
    os.sync()


def shown(found: dict[str, Figure]) -> None:
    """Prints the seconds of all commands."""
    table(("best of the runs", "seconds", "processor", "peak MiB"), *((name, it.clock, it.processor, f"{it.peak / 1024:.1f}") for name, it in found.items()))


def put(room: Room) -> None:
    """put of 10,000 files of 20 KB, beside mcopy, and of 20,000 empty files into one directory"""
    title, program = next(iter(room.f11fs.items()))
    count = 200 if room.is_small else 10_000
    files, empty = host_files(room, "files", count, 20_000), host_files(room, "names", 2 * count, 0)
    room.does(program, "new", "init", "524288", "--files", str(2 * count + 1000))
    room.does(program, "new", "mkdir", "--names", str(count), "DATA")
    room.does(program, "new", "mkdir", "--names", str(2 * count), "NAMES")
    words = {"put": [*files, "[DATA]"], "put of names": [*empty, "[NAMES]"], "put of one name": [empty[0], "[NAMES]"]}
    loads = {name: Load([program, "image", "put", *given], lambda: fresh(room, "new")) for name, given in words.items()}
    if has("mcopy", "mformat"):
        room.does("mformat", "-C", "-F", "-T", "524288", "-i", "fat", "::")
        loads["mcopy"] = Load(["mcopy", "-i", "image", *files, "::/"], lambda: fresh(room, "fat"))
    found = room.best(loads)
    shown(found)
    if "mcopy" in found:
        target(f"{title} put: processor to mcopy's", found["put"].processor / found["mcopy"].processor, 2)
        target(f"{title} put: seconds to mcopy's", found["put"].clock / found["mcopy"].clock, 2)
    target("seconds of processor of all names more than of one", found["put of names"].processor - found["put of one name"].processor, 0.5)


def between(room: Room) -> None:
    """cp --from of 10,000 files of 50 KB between volumes of 512 MiB, beside cat; get -r and put -r of them, beside mcopy -s"""
    program = next(iter(room.f11fs.values()))
    count, blocks = (60, 16_384) if room.is_small else (10_000, 1_048_576)
    files = host_files(room, "files", count, 50_000)
    room.does(program, "new", "init", str(blocks), "--files", str(count + 1000))
    room.does(program, "new", "mkdir", "--names", str(count), "DATA")
    room.copied("new", "full")
    room.does(program, "-q", "full", "put", *files, "[DATA]")
    loads = {
        "cp --from": Load([program, "image", "cp", "--from", "full", "-r", "DATA", "DATA"]),
        "cat": Load(["sh", "-c", "cat full >/dev/null; cat full >copy"]),
        "get -r": Load([program, "full", "get", "-r", "DATA", "tree"]),
        "put -r": Load([program, "image", "put", "-r", "files", "DATA"]),
    }
    for load in loads.values():
        load.before = lambda: fresh(room, "new")
    if has("mcopy", "mformat"):
        room.does("mformat", "-C", "-F", "-T", str(max(blocks, 524_288)), "-i", "fat", "::")  # FAT32 wants many clusters
        room.copied("fat", "full-fat")
        room.does("mcopy", "-s", "-i", "full-fat", "files", "::/")
        loads["mcopy -s, put"] = Load(["mcopy", "-s", "-i", "image", "files", "::/"], lambda: fresh(room, "fat"))
        loads["mcopy -s, get"] = Load(["mcopy", "-s", "-i", "full-fat", "::/files", "got"], lambda: fresh(room, "new"))
    found = room.best(loads)
    shown(found)
    target("cp --from: processor to cat's", found["cp --from"].processor / max(found["cat"].processor, 0.001), 1.5)
    target("cp --from: seconds to cat's", found["cp --from"].clock / found["cat"].clock, 1.5)
    for name in ("get", "put") if "mcopy -s, get" in found else ():
        target(f"{name} -r: seconds to mcopy's", found[f"{name} -r"].clock / found[f"mcopy -s, {name}"].clock, 1)


def paths(room: Room) -> None:
    """1,000 paths in a directory of 10,000 names: one get, and a file of commands with a cat or a put for each, beside info"""
    count = 200 if room.is_small else 10_000
    files = host_files(room, "names", count, 7)
    program = next(iter(room.f11fs.values()))
    room.does(program, "new", "init", "60000", "--files", str(count + count // 5))
    room.does(program, "new", "mkdir", "--names", str(count + count // 5), "NAMES")
    room.does(program, "-q", "new", "put", *files, "[NAMES]")
    some = random.Random(10_000).sample(files, count // 10)
    cats = room.script("cat", (f"cat {path.upper()}" for path in some))
    puts = room.script("put", (f"put {path} NAMES" for path in some))
    words = {
        "info": ["image", "info"],
        "get": ["-q", "image", "get", *map(str.upper, some), "got/"],
        "cat": ["-q", "-f", cats, "image"],
        "put": ["-q", "-f", puts, "image"],
    }
    loads = {f"{title} {name}": Load([it, *given], lambda: fresh(room, "new")) for title, it in room.f11fs.items() for name, given in words.items()}
    found = room.best(loads)
    for title in room.f11fs:
        for name in ("get", "cat", "put"):
            target(f"{title} {name}: seconds of processor more than info", found[f"{title} {name}"].processor - found[f"{title} info"].processor, 0.2)


def fs(room: Room) -> None:
    """ls -lR, get of all and check --all on 512 MiB with 10,000 files, beside f11 IMAGE and cat"""
    program, f11 = next(iter(room.f11fs.values())), next(iter(room.f11.values()))
    image = room.large() if room.is_small else room.image("large", "--files 10000 --directories 30")
    room.does("cp", image, "new")
    found = room.best({
        "f11 IMAGE": Load([f11, image]),
        "ls -lR": Load([program, image, "ls", "-lR"]),
        "check --all": Load([program, image, "check", "--all"]),
        "get": Load([program, image, "get", "[*]*.DAT", "got"], lambda: fresh(room, "new")),
        "cat": Load(["sh", "-c", "find got -type f -print0 | xargs -0 cat"]),
    })
    shown(found)
    mounted = found["f11 IMAGE"].processor
    target("ls -lR: processor to f11 IMAGE", found["ls -lR"].processor / mounted, 1.3)
    target("get: processor to f11 IMAGE and cat", found["get"].processor / (mounted + found["cat"].processor), 1.3)
    target("check --all: processor to f11 IMAGE", found["check --all"].processor / mounted, 1.2)


HOSTILE = ("one 2000", "one 4000", "one 16000", "pairs 16000", "dirs 100 500", "nested 4000")


def hostile(room: Room) -> None:
    """check, check --all and rescue on images by which work or memory could grow by the square, at most 3 image sizes and 16 MiB"""
    program, rows = next(iter(room.f11fs.values())), []
    for kind in HOSTILE[:1] if room.is_small else HOSTILE:
        image = room.hostile(kind)
        size = image.stat().st_size
        for words in ("check", "check --all", "check --all --json", "rescue tree"):
            shutil.rmtree(room.folder / "tree", ignore_errors=True)
            ran = room.run("hostile", Load(["timeout", "120", program, image, *words.split()], may_fail=True))
            is_wanted = "yes" if ran.peak * 1024 <= 3 * size + 16 * 2**20 else "no"
            rows.append((kind, f"{size / 1e6:.1f}", words, f"{ran.peak * 1024 / 1e6:.1f}", is_wanted, ran.clock, ran.status))
    table(("Image", "MB", "Command", "Peak MB", "As wanted", "Seconds", "Status"), *rows)
