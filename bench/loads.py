"""Scripts of one kind of load for f11, and the like operations for debugfs of e2fsprogs, in its own words.

A script of f11 has at most 1,048,576 bytes, so names are short. The volumes have the files 6 and 7.
"""
from collections.abc import Callable

FILE_BLOCKS = 400  # of the file whose blocks are written and read: as many as a volume of 512 has room for
GROWTH = 58  # blocks by which a file grows before it is deleted
NAMES = 2_000  # in the directory
WRITES = 5_454  # to each of eleven files of the most blocks that a Create gives, one at each twelfth block
# The lines that open a script, and the lines of its rounds, by their number.
Kind = tuple[list[str], Callable[[int], list[str]]]


def block(number: int) -> int:
    """The block of a round, from 0 on."""
    return 37 * number % FILE_BLOCKS


KINDS: dict[str, Kind] = {
    "creates": ([], lambda _: ["CREATE X.DAT 1", "DELETE $"]),
    "mixed": ([], lambda _: ["CREATE X.DAT 1", "WRITE $ 1 41", "READ $ 1", "DELETE $"]),
    "extends": ([], lambda _: ["CREATE X.DAT 0", *["EXTEND $ 1"] * GROWTH, "DELETE $"]),
    "blocks": ([f"CREATE X.DAT {FILE_BLOCKS}"], lambda number: [f"WRITE $ {1 + block(number)} 4142", f"READ $ {1 + block(number)}"]),
    "reads": ([f"CREATE X.DAT {FILE_BLOCKS}"], lambda number: [f"READ $ {1 + block(number)}"]),
    "names": (
        ["CREATE D.DIR 63", "CREATE X.DAT 0", *(f"ENTER 8,1 N{number}.D 9,1" for number in range(NAMES))],
        lambda _: ["ENTER 8,1 Z.D 9,1", "LOOK 8,1 Z.D", "REMOVE 8,1 Z.D"],
    ),
    "views": (["CREATE X.DAT 1", "WRITE $ 1 4142"], lambda _: ["VIEW READ $ 1"]),
    "fills": ([], lambda _: ["CREATE X.DAT 65535"]),
    "spread": ([], lambda _: ["CREATE X.DAT 65535", *(f"WRITE $ {1 + 12 * step} 41" for step in range(WRITES))]),
}
# What debugfs does in place of a kind; it copies from the file `source`, and makes no room in a directory by itself.
DEBUGFS: dict[str, Kind] = {
    "creates": ([], lambda _: ["write source x", "rm x"]),
    "mixed": ([], lambda _: ["write source x", "zap_block -f x -p 65 0", "block_dump -f x 0", "rm x"]),
    "extends": ([], lambda _: ["write /dev/null x", *(f"fallocate x {at} {at}" for at in range(GROWTH)), "rm x"]),
    "blocks": (
        ["write /dev/null x", f"fallocate x 0 {FILE_BLOCKS - 1}"],
        lambda number: [f"zap_block -f x -p 65 {block(number)}", f"block_dump -f x {block(number)}"],
    ),
    "names": (
        ["mkdir d", "write source x", *["expand_dir d"] * 60, "cd d", *(f"ln /x n{number}" for number in range(NAMES))],
        lambda _: ["ln /x z", "stat z", "unlink z"],
    ),
}


def lines_of(kind: Kind, count: int) -> list[str]:
    """So many lines of a kind of load."""
    opening, body = kind
    lines, number = [*opening], 0
    while len(lines) < count:
        lines += body(number)
        number += 1
    return lines[:count]
