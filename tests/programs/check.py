"""How much check and rescue keep of a hostile image, and the pairs of files that share a block."""
from fs_image import Volume
from fs_room import Disk, memory, on
from make_hostile import same_blocks, same_directories


def shared_block() -> bytes:
    """A volume of whose twelve files each has block 79 as its one block."""
    volume = Volume()
    volume.directory(4, "000000.DIR;1", *((f"F{number}.DAT;1", number, 1) for number in range(6, 18)))
    for number in range(6, 18):
        volume.file(number, f"F{number}.DAT;1", None, places=[79], kind=1)
    return volume.bytes()


class Check(Disk):
    @on(shared_block)
    def test_each_pair_is_told_while_there_are_few(self) -> None:
        lines = [line for line in self.f11fs("disk", "check", "--all")[1].decode().splitlines() if line.startswith("DoublyUsed")]
        self.assertCountEqual(lines, [f"DoublyUsed {one} {other} 79 (1 block)  [0,0]F{one}.DAT;1  [0,0]F{other}.DAT;1" for other in range(6, 18) for one in range(6, other)])

    @on(lambda: bytes(same_blocks(4000, lambda _: 0)))
    def test_files_that_name_one_block_take_little_memory(self) -> None:
        self.assertEqual(self.f11fs("disk", "check", preexec_fn=memory(64 << 20))[::2], (7, b""))
        status, output, _ = self.f11fs("disk", "check", "--all", preexec_fn=memory(64 << 20))
        self.assertEqual((status, sum(line.startswith(b"DoublyUsed") for line in output.splitlines())), (7, 10_000))
        self.assertEqual(self.f11fs("disk", "rescue", "out", preexec_fn=memory(64 << 20))[::2], (0, b""), "rescue, which copies each file")

    @on(lambda: bytes(same_directories(100, 500)))
    def test_directories_over_the_same_blocks_take_little_memory(self) -> None:
        self.assertEqual(self.f11fs("disk", "check", preexec_fn=memory(64 << 20))[0], 7)
        status, output, _ = self.f11fs("disk", "check", "--all", preexec_fn=memory(64 << 20))
        self.assertEqual((status, output.count(b", and that is no file  [0,0]")), (7, 10_000))
