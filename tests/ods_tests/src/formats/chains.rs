//! Chains of headers: the blocks of a file, and a chain into itself.
ghost use Rattle.ods_space.specs.Disks.{on};
ghost use Rattle.ods_space.specs.Files.{IsLayoutOf};

use super::layouts::{layout_of, scattered};
use crate::persons::a_txt;
use crate::volumes::{Variant, added, run, sample_of};
use ods_alloc::runs_of_blocks;
use ods_base::{Coded, Image};
use ods_space::{ChainFault, Disk, block_count, chain, file_header, locate};
use std::alloc::Global;
use std::process::Abort;
use std::test::Fail;

/// Header 7 names itself as the next header.
fn looped(alloc: Global) -> Result<Image, Fail> {
    let first = added(6, a_txt()).before(7);
    let second = added(7, a_txt()).second().before(7);
    Variant {
        headers: &[(8, first.mapping(&[run(22, 1)])), (9, second.mapping(&[]))],
        ..sample_of(40)
    }
    .image(alloc)
}

/// File 6 has 103 blocks by its two headers, the second of which is header 8.
fn has_103_blocks(rt: &impl Abort, disk: &Disk<'_>) -> Result<(), Fail>
    requires { on IsLayoutOf disk.now }
{
    assert!(rt; block_count(disk, 6) == Some(103));
    assert!(rt; block_count(disk, 8).is_none());
    let first = file_header(disk, 6).ok_or("no file")?;
    assert!(rt; first.next.number == 8);
    assert!(rt; file_header(disk, 8).is_none());
    Ok(())
}

/// The blocks of its chain.
fn has_chain(rt: &impl Abort, alloc: Global, disk: &Disk<'_>) -> Result<(), Fail>
    requires { on IsLayoutOf disk.now }
{
    let blocks = chain(alloc, disk, 6)?;
    assert!(rt; blocks.len() == 103);
    assert!(rt; blocks.last().copied() == Some(226));
    Ok(())
}

/// Where its blocks are.
fn has_places(rt: &impl Abort, disk: &Disk<'_>)
    requires { on IsLayoutOf disk.now }
{
    for (vbn, lbn) in [
        (0, None),
        (1, Some(22)),
        (102, Some(224)),
        (103, Some(226)),
        (104, None),
    ] {
        assert!(rt; locate(disk, 6, vbn) == lbn, "block {vbn}");
    }
}

#[test]
fn chain_of_scattered_file(rt: HostRuntime) -> Result<(), Fail> {
    let image = scattered(rt.alloc())?;
    let layout = layout_of(rt.alloc(), &image)?;
    let disk = Disk {
        image: &image,
        layout: &layout,
    };
    has_places(&rt, &disk);
    has_chain(&rt, rt.alloc(), &disk)?;
    has_103_blocks(&rt, &disk)
}

/// File 6 has no whole chain.
fn has_no_chain(rt: &impl Abort, alloc: Global, disk: &Disk<'_>)
    requires { on IsLayoutOf disk.now }
{
    let fault = chain(alloc, disk, 6).err();
    assert!(rt; fault == Some(ChainFault::BadChain));
    assert!(rt; ChainFault::BadChain.code() == 20);
    assert!(rt; block_count(disk, 6).is_none());
    assert!(rt; locate(disk, 6, 1).is_none());
}

#[test]
fn looped_chain(rt: HostRuntime) -> Result<(), Fail> {
    let image = looped(rt.alloc())?;
    let layout = layout_of(rt.alloc(), &image)?;
    let disk = Disk {
        image: &image,
        layout: &layout,
    };
    has_no_chain(&rt, rt.alloc(), &disk);
    Ok(())
}

/// Blocks are cut into runs where they are apart.
#[test]
fn cuts_where_blocks_are_apart(rt: HostRuntime) -> Result<(), Fail> {
    let runs = runs_of_blocks(rt.alloc(), &[5, 6, 7, 9])?;
    assert!(rt; runs.as_slice() == [run(5, 3), run(9, 1)].as_slice());
    Ok(())
}
