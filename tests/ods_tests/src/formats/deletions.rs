//! Deleted files, whose headers are still there.
use super::layouts::layout_of;
use crate::persons::a_txt;
use crate::settings::{Refusing, ends};
use crate::volumes::{Variant, added, run, sample_of};
use ods_base::{Block, Image, set_word, sum, word};
use ods_header::{Run, deleted_header as delete_header, file_number};
use ods_remains::{DeletedFile, Shares, Summary, deleted_file, deleted_files, deleted_header};
use ods_space::Disk;
use std::alloc::Global;
use std::process::Abort;
use std::test::Fail;

/// The first header of file 6, which names header 7 as its next one and maps LBN 22.
fn first() -> Block {
    added(6, a_txt()).before(7).mapping(&[run(22, 1)])
}

/// Header 7, the second of file 6, which maps LBN 24 and 25.
fn second() -> Block {
    added(7, a_txt()).second().mapping(&[run(24, 2)])
}

/// The sample volume of 40 blocks with these two headers, of which the index bits are as said. LBN 22 and 24 are free, and LBN 25 is not.
fn with_headers(
    alloc: Global,
    first: Block,
    second: Block,
    in_use: &[(u16, bool)],
) -> Result<Image, Fail> {
    Variant {
        headers: &[(8, first), (9, second)],
        index_bits: in_use,
        storage_bits: &[(22, true), (24, true), (25, false)],
        ..sample_of(40)
    }
    .image(alloc)
}

/// Both index bits are clear.
const DELETED: [(u16, bool); 2] = [(6, false), (7, false)];

/// This deleted file.
fn file_of(alloc: Global, disk: &Disk<'_>, number: u16) -> Result<DeletedFile, Fail> {
    Ok(deleted_file(alloc, disk, number)?.ok_or("no deleted file")?)
}

/// File 6 is the one deleted file, with both of its headers.
fn has_deleted_file_6(rt: &impl Abort, alloc: Global, disk: &Disk<'_>) -> Result<(), Fail> {
    assert!(rt; deleted_files(alloc, disk)?.as_slice() == [6].as_slice());
    let file = file_of(alloc, disk, 6)?;
    assert!(rt; file.headers.as_slice() == [6, 7].as_slice() && !file.is_cut);
    assert!(rt; file.blocks.as_slice() == [22, 24, 25].as_slice());
    let summary = Shares::of(alloc, disk)?.summary(alloc, 6)?;
    assert!(rt; summary.blocks == 3 && summary.used == 1 && summary.missing.is_none());
    assert!(rt; summary.sharer.is_none() && !summary.is_whole);
    Ok(())
}

/// The two headers as a deletion may leave them are found as file 6.
fn finds(rt: &impl Abort, alloc: Global, first: Block, second: Block) -> Result<(), Fail> {
    let image = with_headers(alloc, first, second, &DELETED)?;
    let layout = layout_of(alloc, &image)?;
    let disk = Disk {
        image: &image,
        layout: &layout,
    };
    has_deleted_file_6(rt, alloc, &disk)
}

/// The block with the number 0, and the sum as it is.
fn without_number(block: &Block) -> Block {
    let mut cleared = *block;
    set_word(&mut cleared, 1, 0);
    cleared
}

/// The block with the number 0, and no sum.
fn without_sum(block: &Block) -> Block {
    let mut cleared = without_number(block);
    set_word(&mut cleared, 255, 0);
    cleared
}

#[test]
fn deleted_file_is_found_however_it_was_deleted(rt: HostRuntime) -> Result<(), Fail> {
    finds(&rt, rt.alloc(), first(), second())?;
    finds(
        &rt,
        rt.alloc(),
        delete_header(&first()),
        delete_header(&second()),
    )?;
    finds(
        &rt,
        rt.alloc(),
        without_number(&first()),
        without_number(&second()),
    )?;
    finds(
        &rt,
        rt.alloc(),
        without_sum(&first()),
        without_sum(&second()),
    )?;
    Ok(())
}

#[test]
fn deleted_header_is_as_it_was(rt: HostRuntime) -> Result<(), Fail> {
    let image = with_headers(rt.alloc(), without_sum(&first()), second(), &DELETED)?;
    let layout = layout_of(rt.alloc(), &image)?;
    let disk = Disk {
        image: &image,
        layout: &layout,
    };
    let header = deleted_header(&disk, 6).ok_or("no header")?;
    assert!(rt; header == first());
    assert!(rt; file_number(&header) == 6 && word(&header, 255) == sum(&header, 255));
    Ok(())
}

#[test]
fn deleted_file_is_cut_where_its_next_header_is_in_use(rt: HostRuntime) -> Result<(), Fail> {
    let image = with_headers(rt.alloc(), first(), second(), &[(6, false)])?;
    let layout = layout_of(rt.alloc(), &image)?;
    let disk = Disk {
        image: &image,
        layout: &layout,
    };
    let file = file_of(rt.alloc(), &disk, 6)?;
    assert!(rt; file.headers.as_slice() == [6].as_slice() && file.is_cut);
    assert!(rt; file.blocks.as_slice() == [22].as_slice());
    let summary = Shares::of(rt.alloc(), &disk)?.summary(rt.alloc(), 6)?;
    assert!(rt; summary.blocks == 1 && summary.used == 0 && summary.missing == Some(2));
    Ok(())
}

#[test]
fn file_in_use_is_not_deleted(rt: HostRuntime) -> Result<(), Fail> {
    let image = with_headers(rt.alloc(), first(), second(), &[])?;
    let layout = layout_of(rt.alloc(), &image)?;
    let disk = Disk {
        image: &image,
        layout: &layout,
    };
    assert!(rt; deleted_files(rt.alloc(), &disk)?.is_empty());
    for number in [0, 1, 6, 7, 8, 16, 17, 65535] {
        assert!(rt; deleted_header(&disk, number).is_none(), "{number}");
        assert!(rt;
            deleted_file(rt.alloc(), &disk, number)?.is_none(),
            "{number}"
        );
    }
    Ok(())
}

#[test]
fn spoiled_header_is_no_deleted_one(rt: HostRuntime) -> Result<(), Fail> {
    let mut spoiled = first();
    spoiled.set_bytes(300, &[1]);
    let image = with_headers(rt.alloc(), spoiled, second(), &DELETED)?;
    let layout = layout_of(rt.alloc(), &image)?;
    let disk = Disk {
        image: &image,
        layout: &layout,
    };
    assert!(rt; deleted_files(rt.alloc(), &disk)?.is_empty());
    assert!(rt; deleted_header(&disk, 6).is_none() && deleted_header(&disk, 7).is_some());
    Ok(())
}

/// The sample volume of 40 blocks with two deleted files, 6 and 8, which map these runs. LBN 22 to 25 are free.
fn two_deleted(alloc: Global, one: &[Run], other: &[Run]) -> Result<Image, Fail> {
    Variant {
        headers: &[
            (8, added(6, a_txt()).mapping(one)),
            (10, added(8, a_txt()).mapping(other)),
        ],
        index_bits: &[(6, false), (8, false)],
        storage_bits: &[(22, true), (23, true), (24, true), (25, true)],
        ..sample_of(40)
    }
    .image(alloc)
}

/// Which deleted file each of the two shares a block with.
fn sharers(alloc: Global, disk: &Disk<'_>) -> Result<(Option<u16>, Option<u16>), Fail> {
    let shares = Shares::of(alloc, disk)?;
    let one = shares.summary(alloc, 6)?;
    let other = shares.summary(alloc, 8)?;
    Ok((one.sharer, other.sharer))
}

#[test]
fn deleted_files_share_a_block(rt: HostRuntime) -> Result<(), Fail> {
    let image = two_deleted(rt.alloc(), &[run(22, 3)], &[run(30, 2), run(24, 1)])?;
    let layout = layout_of(rt.alloc(), &image)?;
    let disk = Disk {
        image: &image,
        layout: &layout,
    };
    assert!(rt; deleted_files(rt.alloc(), &disk)?.as_slice() == [6, 8].as_slice());
    assert!(rt; sharers(rt.alloc(), &disk)? == (Some(8), Some(6)));
    Ok(())
}

/// The files that share blocks on the volume with two deleted files.
fn sharers_of(
    alloc: Global,
    one: &[Run],
    other: &[Run],
) -> Result<(Option<u16>, Option<u16>), Fail> {
    let image = two_deleted(alloc, one, other)?;
    let layout = layout_of(alloc, &image)?;
    let disk = Disk {
        image: &image,
        layout: &layout,
    };
    sharers(alloc, &disk)
}

#[test]
fn deleted_files_apart_share_no_block(rt: HostRuntime) -> Result<(), Fail> {
    assert!(rt;
        sharers_of(
            rt.alloc(),
            &[run(22, 3), run(70, 1)],
            &[run(25, 2), run(71, 1)]
        )? == (None, None)
    );
    Ok(())
}

#[test]
fn deleted_files_share_a_block_that_the_image_lacks(rt: HostRuntime) -> Result<(), Fail> {
    assert!(rt;
        sharers_of(
            rt.alloc(),
            &[run(22, 3), run(70, 1)],
            &[run(25, 2), run(70, 1)]
        )? == (Some(8), Some(6))
    );
    Ok(())
}

#[test]
fn deleted_file_that_names_a_block_twice_shares_it_with_itself(
    rt: HostRuntime,
) -> Result<(), Fail> {
    assert!(rt;
        sharers_of(rt.alloc(), &[run(22, 2), run(23, 1)], &[run(25, 1)])? == (Some(6), None)
    );
    assert!(rt; sharers_of(rt.alloc(), &[run(70, 2), run(71, 1)], &[])? == (Some(6), None));
    Ok(())
}

/// Whether the deleted file 6, which maps these runs, is whole beside file 8, which maps those.
fn is_whole(alloc: Global, one: &[Run], other: &[Run]) -> Result<bool, Fail> {
    let image = two_deleted(alloc, one, other)?;
    let layout = layout_of(alloc, &image)?;
    let disk = Disk {
        image: &image,
        layout: &layout,
    };
    Ok(Shares::of(alloc, &disk)?.summary(alloc, 6)?.is_whole)
}

#[test]
fn deleted_file_is_whole_where_its_blocks_are_its_own(rt: HostRuntime) -> Result<(), Fail> {
    assert!(rt; is_whole(rt.alloc(), &[run(22, 3)], &[run(25, 1)])?);
    assert!(rt; is_whole(rt.alloc(), &[], &[run(25, 1)])?);
    assert!(rt; !is_whole(rt.alloc(), &[run(22, 4)], &[run(25, 1)])?);
    assert!(rt; !is_whole(rt.alloc(), &[run(22, 2), run(23, 1)], &[])?);
    assert!(rt; !is_whole(rt.alloc(), &[run(22, 2), run(26, 1)], &[])?);
    assert!(rt; !is_whole(rt.alloc(), &[run(22, 2), run(70, 1)], &[])?);
    Ok(())
}

#[test]
fn deleted_files_share_a_header(rt: HostRuntime) -> Result<(), Fail> {
    let of = |number: u16, runs: &[Run]| added(number, a_txt()).before(7).mapping(runs);
    let image = Variant {
        headers: &[
            (8, of(6, &[run(22, 1)])),
            (9, second()),
            (10, of(8, &[run(23, 1)])),
            (11, of(9, &[])),
        ],
        index_bits: &[(6, false), (7, false), (8, false), (9, false)],
        storage_bits: &[(22, true), (23, true), (24, true), (25, false)],
        ..sample_of(40)
    }
    .image(rt.alloc())?;
    let layout = layout_of(rt.alloc(), &image)?;
    let disk = Disk {
        image: &image,
        layout: &layout,
    };
    let shares = Shares::of(rt.alloc(), &disk)?;
    for (number, blocks, sharer) in [(6, 3, 9), (8, 3, 6), (9, 2, 6)] {
        let summary = shares.summary(rt.alloc(), number)?;
        assert!(rt; summary.blocks == blocks && summary.used == 1, "{number}");
        assert!(rt;
            summary.sharer == Some(sharer) && !summary.is_whole,
            "{number}"
        );
    }
    Ok(())
}

#[test]
fn refused_memory_of_shared_blocks(rt: HostRuntime) -> Result<(), Fail> {
    let mut refusing = Refusing::of(&rt);
    let image = two_deleted(rt.alloc(), &[run(22, 3)], &[run(24, 1)])?;
    let layout = layout_of(rt.alloc(), &image)?;
    let disk = Disk {
        image: &image,
        layout: &layout,
    };
    let shares = match Shares::of(rt.alloc(), &disk) {
        Ok(shares) => shares,
        Err(_) => {
            refusing.meets(&rt);
            Shares::of(rt.alloc(), &disk)?
        }
    };
    let summary = shares.summary(rt.alloc(), 6)?;
    assert!(rt; summary.sharer == Some(8) && !summary.is_whole);
    ends(&rt, rt.alloc());
    Ok(())
}
