//! Random requests on volumes whose INDEXF.SYS can grow, beside the plain program: in one header and in two, with little room for pointers,
//! with few free blocks, where files are in pieces, and past numbers in use behind the last. Free blocks have old bytes at first. What is
//! refused lets INDEXF.SYS be; a number behind the last gets sequence 1, and one that is passed over a block of zeros. A test fails too where
//! INDEXF.SYS hardly ever grew.
use super::random::{ask_any, mounts, times};
use super::rows::{create, dat, made};
use super::trial::{Trial, ask_quickly, same_catalogue, start};
use crate::dice::Dice;
use crate::persons::{USER, indexf};
use crate::reader::{header_place, is_marked, plain_last};
use crate::volumes::{FileHeader, Variant, added, block_of, reserved, run, sample_of, set_sum};
use ods_base::{Block, Image};
use std::alloc::Global;
use std::process::Abort;
use std::rt::Env;
use std::test::Fail;

/// Where random requests begin: on a volume of so many blocks, with this H.FMAX.
#[derive(Clone, Copy)]
enum Ground {
    /// INDEXF.SYS has one header.
    One(u32, u16),
    /// It has a second header, number 17.
    Two(u32, u16),
    /// Its header has room for so many words of pointers.
    Narrow(u16, u8),
    /// No two free blocks are neighbours.
    Scattered(u16),
    /// Numbers behind the last are in use, of which two are neighbours.
    Passing(u16),
}

/// A sample of so many blocks with this H.FMAX.
fn most<'a>(blocks: u32, most_files: u16) -> Variant<'a> {
    Variant {
        most_files,
        ..sample_of(blocks)
    }
}

/// Header 1 with room for so many words of pointers.
fn narrow(words: u8) -> Block {
    let mut block = reserved(1, indexf()).mapping(&[run(0, 19)]);
    block.set_bytes(101, &[words]);
    set_sum(&mut block, 255);
    block
}

/// The volume that a ground is.
fn image_on(alloc: Global, ground: Ground) -> Result<Image, Fail> {
    match ground {
        Ground::One(blocks, files) => most(blocks, files).image(alloc),
        Ground::Two(blocks, files) => {
            let first = reserved(1, indexf()).before(17);
            let second: FileHeader = added(17, indexf()).second();
            Variant {
                headers: &[
                    (3, first.mapping(&[run(0, 19), run(22, 1)])),
                    (22, second.mapping(&[run(23, 1)])),
                ],
                ..most(blocks, files)
            }
            .image(alloc)
        }
        Ground::Narrow(files, words) => Variant {
            headers: &[(3, narrow(words))],
            ..most(512, files)
        }
        .image(alloc),
        Ground::Scattered(files) => scattered(alloc, files),
        Ground::Passing(files) => Variant {
            index_bits: &[(17, true), (19, true), (20, true), (23, true), (26, true)],
            ..most(512, files)
        }
        .image(alloc),
    }
}

/// A volume of 512 blocks with this H.FMAX, where no two free blocks are neighbours.
pub fn scattered(alloc: Global, most_files: u16) -> Result<Image, Fail> {
    let mut held = [(23, false); 245];
    for k in 0..245 {
        held[k] = (23 + 2 * k as u32, false);
    }
    Variant {
        storage_bits: &held,
        ..most(512, most_files)
    }
    .image(alloc)
}

/// The image with old bytes in its free blocks, and in those of headers behind number 16.
fn with_old_bytes(mut image: Image) -> Image {
    for lbn in 22..image.len() {
        if image.block(lbn).is_zeros() {
            image.set_block(lbn, Block::new([7; 512]));
        }
    }
    image
}

/// A trial on this ground, whose numbers 6 to 16 are taken.
fn trial_on(rt: &impl Abort, alloc: Global, ground: Ground) -> Result<Trial, Fail> {
    let image = with_old_bytes(image_on(alloc, ground)?);
    let mut trial = start(rt, alloc, image, 65_536)?;
    for number in 6..17 {
        let request = create(rt, dat(b'B'), 0);
        ask_quickly(rt, &mut trial, USER, &request, &made(number, 1))?;
    }
    Ok(trial)
}

/// A random request, which is refused and lets INDEXF.SYS be, or gives sequence 1 to a new file with a number behind the last, which was this.
fn ask_one(rt: &impl Abort, trial: &mut Trial, dice: &mut Dice, last: u16) -> Result<(), Fail> {
    let image = trial.volume.image().copy()?;
    let (entries, given) = (trial.volume.entries().len(), trial.given.len());
    ask_any(rt, trial, dice)?;
    if trial.volume.entries().len() == entries {
        let now = plain_last(trial.volume.image());
        assert!(rt; now == last, "what was refused grew INDEXF.SYS");
    }
    for file in trial.given.iter().skip(given) {
        assert!(rt;
            file.number <= last || file.sequence == 1,
            "{file:?} is new"
        );
    }
    passed_are_zeros(rt, &image, trial.volume.image())
}

/// Where INDEXF.SYS grew, the block of each number that was in use is one of zeros.
fn passed_are_zeros(rt: &impl Abort, before: &Image, after: &Image) -> Result<(), Fail> {
    for number in plain_last(before)..plain_last(after) {
        let next = number.wrapping_add(1);
        if is_marked(before, next) {
            let block = block_of(after, header_place(after, next))?;
            assert!(rt; block.is_zeros(), "number {next} has old bytes");
        }
    }
    Ok(())
}

/// Makes so many random requests, and compares all after each. Returns in how many INDEXF.SYS grew.
fn try_many(
    rt: &impl Abort,
    alloc: Global,
    trial: &mut Trial,
    seed: u64,
    requests: u32,
) -> Result<u32, Fail> {
    let mut dice = Dice::from(seed);
    let mut growths = 0u32;
    for _k in 0..requests {
        let before = plain_last(trial.volume.image());
        ask_one(rt, trial, &mut dice, before)?;
        same_catalogue(rt, alloc, trial)?;
        mounts(rt, alloc, trial.volume.image())?;
        let last = plain_last(trial.volume.image());
        assert!(rt; before <= last, "INDEXF.SYS shrank");
        growths = growths.wrapping_add(u32::from(before < last));
    }
    Ok(growths)
}

/// Makes so many random requests on this ground, by this seed and the two next ones. INDEXF.SYS grows in at least so many of all.
fn try_on(
    rt: &(impl Abort + Env),
    alloc: Global,
    ground: Ground,
    seed: u64,
    requests: u32,
    least: u32,
) -> Result<(), Fail> {
    let mut growths = 0u32;
    for k in 0..3 * times(rt) as u64 {
        let mut trial = trial_on(rt, alloc, ground)?;
        let grown = try_many(rt, alloc, &mut trial, seed.wrapping_add(k), requests)?;
        growths = growths.wrapping_add(grown);
    }
    assert!(rt; least <= growths, "INDEXF.SYS grew {growths} times");
    Ok(())
}

#[test]
fn index_in_one_header(rt: HostRuntime) -> Result<(), Fail> {
    try_on(&rt, rt.alloc(), Ground::One(512, 24), 6_000, 60, 12)
}

#[test]
fn index_in_two_headers(rt: HostRuntime) -> Result<(), Fail> {
    try_on(&rt, rt.alloc(), Ground::Two(512, 24), 7_000, 60, 12)
}

#[test]
fn little_room_for_pointers(rt: HostRuntime) -> Result<(), Fail> {
    try_on(&rt, rt.alloc(), Ground::Narrow(40, 8), 8_000, 60, 9)
}

#[test]
fn few_free_blocks(rt: HostRuntime) -> Result<(), Fail> {
    try_on(&rt, rt.alloc(), Ground::One(40, 40), 9_000, 80, 9)
}

#[test]
fn index_beside_files_in_pieces(rt: HostRuntime) -> Result<(), Fail> {
    try_on(&rt, rt.alloc(), Ground::Scattered(40), 10_000, 60, 12)
}

#[test]
fn numbers_in_use_are_passed_over(rt: HostRuntime) -> Result<(), Fail> {
    try_on(&rt, rt.alloc(), Ground::Passing(40), 11_000, 60, 9)
}
