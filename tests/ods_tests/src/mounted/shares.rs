//! Files that share blocks: each later one gets blocks of its own, with the same bytes, and no other block changes but the bookkeeping.
use crate::persons::{a_txt, b_txt};
use crate::volumes::{Variant, added, run, sample_of};
use FaultLine::Shared;
use ods_base::{Block, Image};
use ods_check::{FaultLine, check_all};
use ods_repair::{RepairFault, Unshared, unshare};
use ods_space::{Disk, chain};
use std::alloc::Global;
use std::process::Abort;
use std::test::Fail;

/// The image of a volume of 40 blocks, where each block from LBN 22 on has its LBN in byte 7.
fn filled(alloc: Global, volume: &Variant<'_>) -> Result<Image, Fail> {
    let mut image = volume.image(alloc)?;
    for lbn in 22..40u32 {
        let mut block = Block::zeros();
        block.set_bytes(7, &[lbn as u8]);
        image.set_block(lbn, block);
    }
    Ok(image)
}

/// Fails where file `number` has not these blocks, or block `i` of it has not the bytes that LBN `bytes[i]` had.
fn has(
    rt: &impl Abort,
    alloc: Global,
    image: &Image,
    number: u16,
    lbns: &[u32],
    bytes: &[u32],
) -> Result<(), Fail> {
    let Some(layout) = check_all(alloc, image)?.layout else {
        panic!(rt; "no layout");
    };
    let disk = Disk {
        image,
        layout: &layout,
    };
    let Ok(found) = chain(alloc, &disk, number) else {
        panic!(rt; "no chain of {number}");
    };
    assert!(rt; found.as_slice() == lbns, "{number}: {found:?}");
    for i in 0..lbns.len() {
        assert!(rt;
            image.block(lbns[i]).byte(7) == bytes[i] as u8,
            "{number}: {i}"
        );
    }
    Ok(())
}

/// What is told of file `number`, whose runs get blocks of their own in this image.
fn unshared(
    rt: &impl Abort,
    alloc: Global,
    image: &mut Image,
    number: u16,
) -> Result<Result<Unshared, RepairFault>, Fail> {
    let Some(layout) = check_all(alloc, image)?.layout else {
        panic!(rt; "no layout");
    };
    Ok(unshare(alloc, image, &layout, number))
}

#[test]
fn a_later_file_gets_blocks_of_its_own(rt: HostRuntime) -> Result<(), Fail> {
    let alloc = rt.alloc();
    // File 7 has LBN 22 alone, and two runs of which file 6 has a block.
    let later = added(7, b_txt()).mapping(&[run(25, 3), run(22, 1), run(23, 2)]);
    let volume = Variant {
        headers: &[(8, added(6, a_txt()).mapping(&[run(24, 3)])), (9, later)],
        ..sample_of(40)
    };
    let mut image = filled(alloc, &volume)?;
    let faults = check_all(alloc, &image)?.faults;
    assert!(&rt; faults.kept_lines() == [Shared(6, 7, 24, 3)].as_slice());
    let told = unshared(&rt, alloc, &mut image, 7)?;
    assert!(&rt; told == Ok(Unshared { moved: 2, left: 0 }), "{told:?}");
    // The lowest run of three free blocks is 28 to 30, and of two then 31 and 32.
    has(&rt, alloc, &image, 6, &[24, 25, 26], &[24, 25, 26])?;
    let own = [28, 29, 30, 22, 31, 32];
    has(&rt, alloc, &image, 7, &own, &[25, 26, 27, 22, 23, 24])?;
    let faults = check_all(alloc, &image)?.faults;
    assert!(&rt; faults.kept_lines().is_empty() && faults.more() == 0);
    // Done twice is done once.
    let told = unshared(&rt, alloc, &mut image, 7)?;
    assert!(&rt; told == Ok(Unshared { moved: 0, left: 0 }), "{told:?}");
    has(&rt, alloc, &image, 7, &own, &[25, 26, 27, 22, 23, 24])
}

#[test]
fn a_file_that_has_a_block_twice_gets_another(rt: HostRuntime) -> Result<(), Fail> {
    let alloc = rt.alloc();
    let twice = added(6, a_txt()).mapping(&[run(22, 2), run(23, 1), run(22, 1)]);
    let volume = Variant {
        headers: &[(8, twice)],
        ..sample_of(40)
    };
    let mut image = filled(alloc, &volume)?;
    let told = unshared(&rt, alloc, &mut image, 6)?;
    assert!(&rt; told == Ok(Unshared { moved: 2, left: 0 }), "{told:?}");
    has(&rt, alloc, &image, 6, &[22, 23, 24, 25], &[22, 23, 23, 22])
}

#[test]
fn what_finds_no_free_blocks_is_left(rt: HostRuntime) -> Result<(), Fail> {
    let alloc = rt.alloc();
    // Of the sample's 18 free blocks files 6 and 7 take 14, so four are free.
    let volume = Variant {
        headers: &[
            (8, added(6, a_txt()).mapping(&[run(22, 14)])),
            (9, added(7, b_txt()).mapping(&[run(22, 5), run(30, 4)])),
        ],
        ..sample_of(40)
    };
    let mut image = filled(alloc, &volume)?;
    let told = unshared(&rt, alloc, &mut image, 7)?;
    assert!(&rt; told == Ok(Unshared { moved: 1, left: 1 }), "{told:?}");
    let own = [22, 23, 24, 25, 26, 36, 37, 38, 39];
    has(
        &rt,
        alloc,
        &image,
        7,
        &own,
        &[22, 23, 24, 25, 26, 30, 31, 32, 33],
    )
}

#[test]
fn a_file_that_cannot_move_is_refused(rt: HostRuntime) -> Result<(), Fail> {
    let alloc = rt.alloc();
    let volume = Variant {
        headers: &[
            (8, added(6, a_txt()).mapping(&[run(22, 2)])),
            (9, added(7, b_txt()).mapping(&[run(22, 2)])),
            (10, added(8, b_txt()).mapping(&[run(30, 1)])),
        ],
        storage_bits: &[(30, true)],
        ..sample_of(40)
    };
    let mut image = filled(alloc, &volume)?;
    let told = unshared(&rt, alloc, &mut image, 7)?;
    assert!(&rt; told == Err(RepairFault::HeldFree(30)), "{told:?}");
    let told = unshared(&rt, alloc, &mut image, 4)?;
    assert!(&rt; told == Err(RepairFault::Reserved(4)), "{told:?}");
    let told = unshared(&rt, alloc, &mut image, 9)?;
    assert!(&rt; told == Err(RepairFault::NoChain(9)), "{told:?}");
    has(&rt, alloc, &image, 7, &[22, 23], &[22, 23])
}
