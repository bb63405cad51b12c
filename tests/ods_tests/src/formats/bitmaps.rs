//! The index bitmap and the storage bitmap: single bits, counts and picks.
ghost use Rattle.std.specs.Prelude.{◌≡◌};
ghost use Rattle.ods_space.specs.Disks.{on, seen};
ghost use Rattle.ods_space.specs.Files.{IsLayoutOf};
ghost use Rattle.ods_alloc.specs.Counts.{counts_of};

use super::layouts::{layout_of, scattered};
use crate::volumes::sample_of;
use ods_alloc::{
    FreeCounts, SpaceFault, free_count, is_number_free, number_count, pick_blocks, pick_numbers,
};
use ods_space::{Disk, in_use, is_free};
use std::alloc::Global;
use std::process::Abort;
use std::test::Fail;

/// So many blocks and numbers are free on a volume.
fn has_free(rt: &impl Abort, disk: &Disk<'_>, blocks: u32, numbers: u32)
    requires { on IsLayoutOf disk.now }
{
    assert!(rt; free_count(disk) == blocks, "{blocks} blocks");
    assert!(rt; number_count(disk) == numbers, "{numbers} numbers");
}

#[test]
fn counts_of_samples(rt: HostRuntime) -> Result<(), Fail> {
    for (blocks, free) in [(40, 18), (512, 490), (4_200, 4_073 + 104)] {
        let image = sample_of(blocks).image(rt.alloc())?;
        let layout = layout_of(rt.alloc(), &image)?;
        let disk = Disk {
            image: &image,
            layout: &layout,
        };
        has_free(&rt, &disk, free, 11);
    }
    Ok(())
}

/// Whether numbers are in use on the sample of forty blocks, and whether they are free.
fn has_numbers(rt: &impl Abort, disk: &Disk<'_>)
    requires { on IsLayoutOf disk.now }
{
    for (number, used, spare) in [
        (0, false, false),
        (5, true, false),
        (6, false, true),
        (17, false, false),
    ] {
        assert!(rt; in_use(disk, number) == used, "bit of {number}");
        assert!(rt; is_number_free(disk, number) == spare, "number {number}");
    }
}

#[test]
fn numbers_of_small_volume(rt: HostRuntime) -> Result<(), Fail> {
    let image = sample_of(40).image(rt.alloc())?;
    let layout = layout_of(rt.alloc(), &image)?;
    let disk = Disk {
        image: &image,
        layout: &layout,
    };
    has_numbers(&rt, &disk);
    Ok(())
}

/// Each of these blocks is free or not, as it is said.
fn has_blocks(rt: &impl Abort, disk: &Disk<'_>, rows: &[(u32, bool)])
    requires { on IsLayoutOf disk.now }
{
    for (lbn, free) in rows {
        assert!(rt; is_free(disk, *lbn) == *free, "block {lbn}");
    }
}

#[test]
fn blocks_of_small_volume(rt: HostRuntime) -> Result<(), Fail> {
    let rows = [(21, false), (22, true), (39, true), (40, false)];
    let image = sample_of(40).image(rt.alloc())?;
    let layout = layout_of(rt.alloc(), &image)?;
    let disk = Disk {
        image: &image,
        layout: &layout,
    };
    has_blocks(&rt, &disk, &rows);
    Ok(())
}

/// The second block of the storage bitmap has the bits from LBN 4096 on; those past the last block count for nothing.
#[test]
fn blocks_of_large_volume(rt: HostRuntime) -> Result<(), Fail> {
    let rows = [
        (22, false),
        (23, true),
        (4_095, true),
        (4_096, true),
        (4_199, true),
        (4_200, false),
    ];
    let image = sample_of(4_200).image(rt.alloc())?;
    let layout = layout_of(rt.alloc(), &image)?;
    let disk = Disk {
        image: &image,
        layout: &layout,
    };
    has_blocks(&rt, &disk, &rows);
    Ok(())
}

/// The blocks of the large volume are counted, and picked up to the last one that is free.
fn picks_large(rt: &impl Abort, alloc: Global, disk: &Disk<'_>) -> Result<(), Fail>
    requires { on IsLayoutOf disk.now }
{
    let counts = FreeCounts::of(alloc, disk)?;
    assert!(rt; counts.as_slice() == [4_073, 104].as_slice());
    assert!(rt; counts.total() == 4_177);
    let full = pick_blocks(alloc, disk, &counts, 4_178).err();
    assert!(rt; full == Some(SpaceFault::VolumeFull));
    let picked = pick_blocks(alloc, disk, &counts, 4_074)?;
    assert!(rt; picked.last().copied() == Some(4_096));
    Ok(())
}

#[test]
fn large_volume_is_picked(rt: HostRuntime) -> Result<(), Fail> {
    let image = sample_of(4_200).image(rt.alloc())?;
    let layout = layout_of(rt.alloc(), &image)?;
    assert!(rt; layout.bitmap() == [19, 20, 22].as_slice());
    let disk = Disk {
        image: &image,
        layout: &layout,
    };
    picks_large(&rt, rt.alloc(), &disk)
}

/// Blocks and numbers beside a file in pieces are picked one by one.
fn picks_between(
    rt: &impl Abort,
    alloc: Global,
    disk: &Disk<'_>,
    counts: &FreeCounts,
) -> Result<(), Fail>
    requires layout { on IsLayoutOf disk.now }
    requires counts { counts.now ≡ seen counts_of disk.now }
{
    let blocks = pick_blocks(alloc, disk, counts, 2)?;
    assert!(rt; blocks.as_slice() == [23, 25].as_slice());
    let numbers = pick_numbers(alloc, disk, counts, 2)?;
    assert!(rt; numbers.as_slice() == [7, 9].as_slice());
    Ok(())
}

/// One block or number more than is free is too many.
fn picks_no_more(rt: &impl Abort, alloc: Global, disk: &Disk<'_>, counts: &FreeCounts)
    requires layout { on IsLayoutOf disk.now }
    requires counts { counts.now ≡ seen counts_of disk.now }
{
    let full = pick_blocks(alloc, disk, counts, 388).err();
    assert!(rt; full == Some(SpaceFault::VolumeFull));
    let full = pick_numbers(alloc, disk, counts, 10).err();
    assert!(rt; full == Some(SpaceFault::HeadersFull));
}

/// Both, by the counts of the volume.
fn picks(rt: &impl Abort, alloc: Global, disk: &Disk<'_>) -> Result<(), Fail>
    requires { on IsLayoutOf disk.now }
{
    let counts = FreeCounts::of(alloc, disk)?;
    picks_no_more(rt, alloc, disk, &counts);
    picks_between(rt, alloc, disk, &counts)
}

#[test]
fn room_beside_scattered_file(rt: HostRuntime) -> Result<(), Fail> {
    let image = scattered(rt.alloc())?;
    let layout = layout_of(rt.alloc(), &image)?;
    let disk = Disk {
        image: &image,
        layout: &layout,
    };
    has_free(&rt, &disk, 387, 9);
    picks(&rt, rt.alloc(), &disk)
}
