//! New volumes: what the mount finds free on them, worked by hand from their sizes; the storage control block and the label; and the sizes
//! that are refused.
use super::mounts::mounts;
use InitFault::{TooLarge, TooManyFiles, TooSmall};
use ods_base::{Image, Uic};
use ods_init::{InitFault, Label, NewVolume, default_files, init};
use ods_request::Stamp;
use std::alloc::Global;
use std::process::Abort;
use std::test::Fail;

/// The volume of so many blocks, with headers for so many files, that is labelled RSX.
fn volume(blocks: u32, files: u32) -> Result<NewVolume, Fail> {
    Ok(NewVolume {
        blocks,
        files,
        label: Label::parse("rsx").ok_or("label")?,
        owner: Uic {
            group: 1,
            member: 1,
        },
        stamp: Stamp::parse(b"01JAN90120000").ok_or("stamp")?,
    })
}

fn made(alloc: Global, blocks: u32, files: u32) -> Result<Result<Image, InitFault>, Fail> {
    Ok(init(alloc, &volume(blocks, files)?))
}

/// Fails where the volume is not mounted with so many blocks and numbers free.
fn is_sound(
    rt: &impl Abort,
    alloc: Global,
    size: (u32, u32),
    free: (u32, u32),
) -> Result<(), Fail> {
    let image = made(alloc, size.0, size.1)??;
    assert!(rt; image.len() == size.0);
    mounts(rt, alloc, image, Ok(free));
    Ok(())
}

#[test]
fn sizes_and_counts(rt: HostRuntime) -> Result<(), Fail> {
    // INDEXF.SYS has 2 blocks, those of its bitmap and the headers; a control block, the storage bitmap and the directory follow.
    for (size, free) in [
        ((40, 1), (40 - (2 + 1 + 16 + 1 + 1 + 1), 11)),
        ((40, 29), (0, 29)),
        ((41, 11), (41 - (2 + 1 + 16 + 1 + 1 + 1), 11)),
        ((511, 12), (511 - (2 + 1 + 17 + 1 + 1 + 1), 12)),
        ((512, 100), (512 - (2 + 1 + 105 + 1 + 1 + 1), 100)),
        ((4_096, 1_000), (4_096 - (2 + 1 + 1_005 + 1 + 1 + 1), 1_000)),
        ((4_097, 1_000), (4_097 - (2 + 2 + 1_005 + 1 + 2 + 1), 1_000)),
        ((65_536, 26_089), (65_536 - (26_112 + 1 + 16 + 1), 26_089)),
    ] {
        is_sound(&rt, rt.alloc(), size, free)?;
    }
    Ok(())
}

#[test]
fn sizes_that_are_refused(rt: HostRuntime) -> Result<(), Fail> {
    for (blocks, files, wanted) in [
        (39, 1, TooSmall),
        (1_048_577, 1, TooLarge),
        (40, 30, TooManyFiles),
        (512, 1_000, TooManyFiles),
        (65_536, 26_090, TooManyFiles),
        (65_536, 4_294_967_295, TooManyFiles),
    ] {
        let Err(fault) = made(rt.alloc(), blocks, files)? else {
            return Err("made")?;
        };
        assert!(&rt; fault == wanted, "{fault:?}");
    }
    Ok(())
}

#[test]
fn control_blocks(rt: HostRuntime) -> Result<(), Fail> {
    let small = made(rt.alloc(), 40, 1)??;
    // One block of bitmap; 18 free from bit 22 on; 40 blocks.
    let wanted = [0, 0, 0, 1, 18, 0, 22, 0, 0, 0, 40, 0, 0, 0, 0, 0];
    assert!(&rt; &small.block(19).bytes()[..16] == wanted.as_slice());
    let large = made(rt.alloc(), 4_097, 1_000)??;
    // Two blocks of bitmap; 3,083 free from bit 1,013 on, and one from bit 0 on; 4,097 blocks.
    let wanted = [
        0, 0, 0, 2, 0x0b, 0x0c, 0xf5, 0x03, 1, 0, 0, 0, 0, 0, 1, 0x10,
    ];
    assert!(&rt; &large.block(1_009).bytes()[..16] == wanted.as_slice());
    Ok(())
}

#[test]
fn attributes_of_bitmaps(rt: HostRuntime) -> Result<(), Fail> {
    let image = made(rt.alloc(), 40, 1)??;
    // INDEXF.SYS has 19 blocks, BITMAP.SYS 2, records of 512 bytes, each with its end behind the last; only BITMAP.SYS is marked as contiguous.
    let index = [1, 0, 0, 2, 0, 0, 19, 0, 0, 0, 20, 0, 0, 0, 0, 0];
    let bitmap = [1, 0, 0, 2, 0, 0, 2, 0, 0, 0, 3, 0, 0, 0, 0, 0];
    assert!(&rt; &image.block(3).bytes()[14..30] == index.as_slice());
    assert!(&rt; &image.block(4).bytes()[14..30] == bitmap.as_slice());
    assert!(&rt; image.block(3).bytes()[12] == 0);
    assert!(&rt; image.block(4).bytes()[12] == 0o200);
    Ok(())
}

#[test]
fn labels_and_defaults(rt: HostRuntime) -> Result<(), Fail> {
    let image = made(rt.alloc(), 40, 1)??;
    assert!(&rt; &image.block(1).bytes()[14..26] == b"RSX\0\0\0\0\0\0\0\0\0".as_slice());
    assert!(&rt;
        &image.block(1).bytes()[472..508] == b"RSX                     DECFILE11A  ".as_slice()
    );
    for text in ["", "A B", "A_B", "ABCDEFGHIJKLM"] {
        assert!(&rt; Label::parse(text).is_none(), "{text}");
    }
    assert!(&rt; Label::parse("a.1bcdefghij").is_some_and(|l| *l.text() == *b"A.1BCDEFGHIJ"));
    for (blocks, files) in [(40, 2), (79, 4), (80, 5), (1_048_576, 26_089)] {
        assert!(&rt; default_files(blocks) == files);
    }
    Ok(())
}
