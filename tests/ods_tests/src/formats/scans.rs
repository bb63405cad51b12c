//! Scans of an image for headers, whether its index file knows them or not.
use crate::persons::a_txt;
use crate::settings::{Refusing, ends};
use crate::volumes::{Variant, added, bytes_at, run, sample_of};
use ods_base::{Block, Image};
use ods_remains::{Scan, Scanned};
use std::alloc::Global;
use std::test::Fail;

/// The sample volume of 40 blocks with these headers, each at its LBN.
fn with_headers(alloc: Global, headers: &[(u32, Block)]) -> Result<Image, Fail> {
    Variant {
        headers,
        ..sample_of(40)
    }
    .image(alloc)
}

/// The first header of file 6, which names header 7 as its next one and maps LBN 22.
fn first() -> Block {
    added(6, a_txt()).before(7).mapping(&[run(22, 1)])
}

/// Header 7, the second of file 6, which maps LBN 24 and 25.
fn second() -> Block {
    added(7, a_txt()).second().mapping(&[run(24, 2)])
}

/// The file that a scan finds at an LBN.
fn file_at(alloc: Global, scan: &Scan<'_>, lbn: u32) -> Result<Scanned, Fail> {
    Ok(scan.file(alloc, lbn)?.ok_or("no file")?)
}

#[test]
fn scan_finds_the_headers_of_a_volume(rt: HostRuntime) -> Result<(), Fail> {
    let image = with_headers(rt.alloc(), &[(8, first()), (9, second())])?;
    let scan = Scan::of(rt.alloc(), &image)?;
    assert!(rt; scan.candidates(rt.alloc())?.as_slice() == [3, 4, 5, 6, 7, 8, 9].as_slice());
    assert!(rt; scan.files(rt.alloc())?.as_slice() == [3, 4, 5, 6, 7, 8].as_slice());
    let file = file_at(rt.alloc(), &scan, 8)?;
    assert!(rt; file.headers.as_slice() == [8, 9].as_slice());
    assert!(rt; file.blocks.as_slice() == [22, 24, 25].as_slice());
    assert!(rt; !file.is_cut);
    Ok(())
}

#[test]
fn scan_needs_no_home_block_and_no_bitmap(rt: HostRuntime) -> Result<(), Fail> {
    let image = Variant {
        bytes: &bytes_at(1, 0, &[0xff; 40]),
        index_bits: &[(1, false), (2, false), (3, false), (4, false), (5, false)],
        ..sample_of(40)
    }
    .image(rt.alloc())?;
    let scan = Scan::of(rt.alloc(), &image)?;
    assert!(rt; scan.files(rt.alloc())?.as_slice() == [3, 4, 5, 6, 7].as_slice());
    Ok(())
}

#[test]
fn scan_passes_over_a_spoiled_header(rt: HostRuntime) -> Result<(), Fail> {
    let image = Variant {
        headers: &[(8, first()), (9, second())],
        bytes: &bytes_at(9, 300, &[1]),
        ..sample_of(40)
    }
    .image(rt.alloc())?;
    let scan = Scan::of(rt.alloc(), &image)?;
    assert!(rt; scan.next(8).is_none());
    let file = file_at(rt.alloc(), &scan, 8)?;
    assert!(rt; file.headers.as_slice() == [8].as_slice() && file.is_cut);
    assert!(rt; file.blocks.as_slice() == [22].as_slice());
    Ok(())
}

#[test]
fn scan_takes_the_nearest_next_header(rt: HostRuntime) -> Result<(), Fail> {
    let near = with_headers(rt.alloc(), &[(25, first()), (10, second()), (28, second())])?;
    assert!(rt; Scan::of(rt.alloc(), &near)?.next(25) == Some(28));
    let apart = with_headers(rt.alloc(), &[(25, first()), (10, second())])?;
    assert!(rt; Scan::of(rt.alloc(), &apart)?.next(25) == Some(10));
    let as_near = with_headers(rt.alloc(), &[(25, first()), (27, second()), (23, second())])?;
    assert!(rt; Scan::of(rt.alloc(), &as_near)?.next(25) == Some(23));
    Ok(())
}

#[test]
fn scan_finds_two_files_of_one_number(rt: HostRuntime) -> Result<(), Fail> {
    let image = with_headers(rt.alloc(), &[(8, first()), (30, first())])?;
    let scan = Scan::of(rt.alloc(), &image)?;
    assert!(rt; scan.files(rt.alloc())?.as_slice() == [3, 4, 5, 6, 7, 8, 30].as_slice());
    Ok(())
}

#[test]
fn scan_ends_where_a_chain_leads_into_itself(rt: HostRuntime) -> Result<(), Fail> {
    let looped = added(7, a_txt()).second().before(7).mapping(&[]);
    let image = with_headers(rt.alloc(), &[(8, first()), (9, looped)])?;
    let scan = Scan::of(rt.alloc(), &image)?;
    let file = file_at(rt.alloc(), &scan, 8)?;
    assert!(rt; file.headers.as_slice() == [8, 9].as_slice() && file.is_cut);
    Ok(())
}

#[test]
fn scan_has_no_file_without_a_first_header(rt: HostRuntime) -> Result<(), Fail> {
    let image = with_headers(rt.alloc(), &[(8, first()), (9, second())])?;
    let scan = Scan::of(rt.alloc(), &image)?;
    for lbn in [0, 1, 9, 22, 39, 40, 4_000_000_000] {
        assert!(rt; scan.file(rt.alloc(), lbn)?.is_none(), "{lbn}");
    }
    Ok(())
}

#[test]
fn refused_memory_of_a_scan(rt: HostRuntime) -> Result<(), Fail> {
    let mut refusing = Refusing::of(&rt);
    let image = with_headers(rt.alloc(), &[(8, first()), (9, second())])?;
    let scan = match Scan::of(rt.alloc(), &image) {
        Ok(scan) => scan,
        Err(_) => {
            refusing.meets(&rt);
            Scan::of(rt.alloc(), &image)?
        }
    };
    let file = match scan.file(rt.alloc(), 8) {
        Ok(file) => file,
        Err(_) => {
            refusing.meets(&rt);
            scan.file(rt.alloc(), 8)?
        }
    };
    let file = file.ok_or("no file")?;
    assert!(rt; file.blocks.as_slice() == [22, 24, 25].as_slice());
    ends(&rt, rt.alloc());
    Ok(())
}
