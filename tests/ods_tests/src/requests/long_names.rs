//! Random names in a directory of forty blocks in two headers, beside the plain program: the directory ends at byte 0 with old bytes behind
//! it, in the midst of an entry, and past the blocks that it has.
use super::random::{ask_freely, some_pick, some_version, times};
use super::rows::{create, delete, enter, id, letter, list, look, made, remove, sub_dir};
use super::trial::{Trial, plays, same_catalogue, start};
use crate::dice::Dice;
use crate::persons::{FIRST, MASTER, TXT, USER};
use crate::volumes::{FileHeader, Variant, added, directory_attributes, run, sample_of};
use ods_base::{Block, FileId, Image, Name};
use ods_request::{Answer, Request};
use std::alloc::Global;
use std::process::Abort;
use std::rt::Env;
use std::test::Fail;

/// The volume of 512 blocks with SUB.DIR, file 6, which has LBN 22 to 41 in its first header and LBN 60 to 79 in its second, header 7.
/// It ends at this byte (F.FFBY) of this block (F.EFBK).
fn long_directory(alloc: Global, block: u8, byte: u8) -> Result<Image, Fail> {
    let header = FileHeader {
        attributes: directory_attributes(40, block, byte),
        ..added(6, sub_dir())
    };
    Variant {
        headers: &[
            (8, header.before(7).mapping(&[run(22, 20)])),
            (9, added(7, sub_dir()).second().mapping(&[run(60, 20)])),
        ],
        ..sample_of(512)
    }
    .image(alloc)
}

/// Puts zeros into the blocks of the directory.
fn clear(image: &mut Image) {
    for lbn in 22..80 {
        if lbn < image.len() && !(42..60).contains(&lbn) {
            image.set_block(lbn, Block::zeros());
        }
    }
}

/// A request on names of the directory.
fn some_request(dice: &mut Dice) -> Request {
    let name: Name = letter(1 + dice.roll(20) as u16, TXT);
    let file: FileId = match dice.roll(4) {
        0 => id(8, 1),
        1 => MASTER,
        _ => FIRST,
    };
    match dice.roll(8) {
        0 => look(FIRST, name, some_pick(dice)),
        1 | 2 => remove(FIRST, name, some_pick(dice)),
        3 => list(FIRST),
        _ => enter(FIRST, name, some_version(dice), file),
    }
}

/// Makes and deletes a file, whose ID names stay free to name.
fn leave_a_name(rt: &impl Abort, alloc: Global, trial: &mut Trial) -> Result<(), Fail> {
    let kept = enter(FIRST, letter(9, TXT), None, id(8, 1));
    let rows = [
        (create(rt, letter(9, TXT), 0), made(8, 1)),
        (kept, Ok(Answer::Entered(1))),
        (delete(id(8, 1)), Ok(Answer::Done)),
    ];
    plays(rt, alloc, trial, &rows)
}

/// Makes ten random requests, and compares what the blocks show then.
fn ask_ten(rt: &impl Abort, alloc: Global, it: &mut Trial, dice: &mut Dice) -> Result<(), Fail> {
    for _k in 0..10 {
        let request = some_request(dice);
        ask_freely(rt, it, USER, &request)?;
    }
    same_catalogue(rt, alloc, it)
}

/// Makes random requests on a directory with this end.
fn try_names(rt: &(impl Abort + Env), alloc: Global, image: Image, seed: u64) -> Result<(), Fail> {
    let mut trial = start(rt, alloc, image, 65_536)?;
    ask_often(rt, alloc, &mut trial, seed)
}

/// Makes the random requests.
fn ask_often(
    rt: &(impl Abort + Env),
    alloc: Global,
    trial: &mut Trial,
    seed: u64,
) -> Result<(), Fail> {
    leave_a_name(rt, alloc, trial)?;
    let mut dice = Dice::from(seed);
    for _k in 0..15u32.saturating_mul(times(rt)) {
        ask_ten(rt, alloc, trial, &mut dice)?;
    }
    Ok(())
}

#[test]
fn directory_over_old_bytes(rt: HostRuntime) -> Result<(), Fail> {
    let image = long_directory(rt.alloc(), 1, 0)?;
    try_names(&rt, rt.alloc(), image, 6_000)
}

#[test]
fn directory_that_ends_in_an_entry(rt: HostRuntime) -> Result<(), Fail> {
    let mut image = long_directory(rt.alloc(), 39, 20)?;
    clear(&mut image);
    try_names(&rt, rt.alloc(), image, 6_001)
}

#[test]
fn directory_that_ends_past_its_blocks(rt: HostRuntime) -> Result<(), Fail> {
    let mut image = long_directory(rt.alloc(), 99, 0)?;
    clear(&mut image);
    try_names(&rt, rt.alloc(), image, 6_002)
}
