//! Truncate and Extend in turn on two files, by dice, beside the plain programs: what is answered, what the blocks show, and each byte of the
//! image behind a cut. A test fails too where hardly any header was given back.
use super::cut_image::cut_image;
use super::growing::two_in_turn;
use super::random::{ask_freely, filled, mounts, times};
use super::random_growth::scattered;
use super::rows::{create, dat, extend, made, truncate};
use super::trial::{Trial, ask_quickly, same_catalogue, start};
use crate::dice::Dice;
use crate::persons::{FIRST, SECOND, USER};
use crate::same::same_image;
use ods_base::FileId;
use ods_plain::Body;
use std::alloc::Global;
use std::process::Abort;
use std::rt::Env;
use std::test::Fail;

/// Where the requests begin: with the files 6,1 and 7,1.
#[derive(Clone, Copy)]
enum Ground {
    /// Both files are empty, and no two free blocks are neighbours. So many numbers behind them are taken, and H.FMAX is this.
    Scattered(u16, u16),
    /// Two files of two headers each.
    TwoInTurn,
    /// The first file has 3,900 blocks of 4,200.
    Large,
}

/// A trial on this ground.
fn trial_on(rt: &impl Abort, alloc: Global, ground: Ground) -> Result<Trial, Fail> {
    match ground {
        Ground::Scattered(taken, files) => {
            let mut trial = start(rt, alloc, scattered(alloc, files)?, 65_536)?;
            for number in 6..8 + taken {
                let request = create(rt, dat(b'B'), 0);
                ask_quickly(rt, &mut trial, USER, &request, &made(number, 1))?;
            }
            Ok(trial)
        }
        Ground::TwoInTurn => two_in_turn(rt, alloc),
        Ground::Large => {
            let mut trial = filled(rt, alloc, 4_200, 3_900)?;
            let request = create(rt, dat(b'B'), 0);
            ask_quickly(rt, &mut trial, USER, &request, &made(7, 1))?;
            Ok(trial)
        }
    }
}

/// How many blocks a plain file has.
fn count_of(trial: &Trial, file: FileId) -> u32 {
    match trial.plain.file(file) {
        Some(found) => match &found.body {
            Body::Plain { blocks, .. } => blocks.len() as u32,
            _ => 0,
        },
        None => 0,
    }
}

/// A count for a file of so many blocks, seldom one that is too great.
fn some_cut(dice: &mut Dice, has: u32) -> u32 {
    match dice.roll(12) {
        0 => 0,
        1 => has,
        2 => has + 1,
        3 => has.min(102),
        4 => has.min(204),
        _ => has - (dice.roll(has as u64 / 2 + 1) as u32),
    }
}

/// Makes a Truncate. The image is the one that the plain program makes of it, or as before. Returns whether a number came back.
fn cuts(rt: &impl Abort, trial: &mut Trial, file: FileId, count: u32) -> Result<bool, Fail> {
    let image = trial.volume.image();
    let wanted = if count <= count_of(trial, file) {
        cut_image(image, file.number, count)?
    } else {
        image.copy()?
    };
    let numbers = trial.volume.number_count();
    ask_freely(rt, trial, USER, &truncate(file, count))?;
    assert!(rt;
        same_image(trial.volume.image(), &wanted),
        "{file:?} cut to {count}"
    );
    Ok(numbers < trial.volume.number_count())
}

/// Makes so many requests, and compares all after each. Returns how many of them gave a header back.
fn try_many(
    rt: &impl Abort,
    alloc: Global,
    trial: &mut Trial,
    seed: u64,
    requests: u32,
) -> Result<u32, Fail> {
    let mut dice = Dice::from(seed);
    let mut given = 0u32;
    for _k in 0..requests {
        let file = if dice.roll(2) == 0 { FIRST } else { SECOND };
        if dice.roll(2) == 0 {
            let count = some_cut(&mut dice, count_of(trial, file));
            given += u32::from(cuts(rt, trial, file, count)?);
        } else {
            let blocks = 1 + dice.roll(70) as u32;
            ask_freely(rt, trial, USER, &extend(file, blocks))?;
        }
        same_catalogue(rt, alloc, trial)?;
        mounts(rt, alloc, trial.volume.image())?;
    }
    Ok(given)
}

/// Makes so many requests on this ground, by this seed and the next one. At least so many of all give a header back.
fn try_on(
    rt: &(impl Abort + Env),
    alloc: Global,
    ground: Ground,
    seed: u64,
    requests: u32,
    least: u32,
) -> Result<(), Fail> {
    let mut given = 0u32;
    for k in 0..2 * times(rt) as u64 {
        let mut trial = trial_on(rt, alloc, ground)?;
        given += try_many(rt, alloc, &mut trial, seed + k, requests)?;
    }
    assert!(rt; least <= given, "{given} requests gave a header back");
    Ok(())
}

#[test]
fn blocks_apart(rt: HostRuntime) -> Result<(), Fail> {
    try_on(&rt, rt.alloc(), Ground::Scattered(0, 16), 11_000, 60, 3)
}

#[test]
fn headers_in_the_grown_index(rt: HostRuntime) -> Result<(), Fail> {
    try_on(&rt, rt.alloc(), Ground::Scattered(9, 24), 12_000, 60, 3)
}

#[test]
fn two_headers_each(rt: HostRuntime) -> Result<(), Fail> {
    try_on(&rt, rt.alloc(), Ground::TwoInTurn, 13_000, 40, 2)
}

#[test]
fn two_bitmap_blocks(rt: HostRuntime) -> Result<(), Fail> {
    try_on(&rt, rt.alloc(), Ground::Large, 14_000, 10, 0)
}
