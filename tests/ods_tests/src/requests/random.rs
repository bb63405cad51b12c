//! Random requests of all kinds, beside the plain program: what each is answered, and what the blocks show after it.
//! `bench/measure random_requests` runs more of them: TRIALS says how many times as many.
use super::growing::two_in_turn;
use super::rows::{
    Reply, a_txt, create, dat, delete, enter, extend, id, letter, list, look, made, read, remove,
    set_user, stamp, stat, sub_dir, truncate, write,
};
use super::trial::{Trial, can_be_asked, is_lack, played, same_catalogue, start};
use crate::dice::Dice;
use crate::persons::{COLLEAGUE, DIR, MASTER, NONE, OWNER, STRANGER, SYSTEM, TXT, USER};
use crate::reader::plain_growth;
use crate::volumes::{Variant, sample_of};
use ods_base::{Block, FileId, Image, Name, Pick, Uic};
use ods_mount::mount;
use ods_request::{Answer, Refusal, Request};
use std::alloc::Global;
use std::process::Abort;
use std::rt::Env;
use std::str;
use std::test::Fail;

/// How many times as many requests are made as in the gate.
pub fn times(rt: &impl Env) -> u32 {
    let mut text = [0; 16];
    let Ok(length) = rt.var("TRIALS", &mut text) else {
        return 1;
    };
    match text.get(..length) {
        Some(bytes) => match str::from_utf8(bytes) {
            Ok(number) => number.parse::<u32>().unwrap_or(1),
            Err(_) => 1,
        },
        None => 1,
    }
}

/// One of the users.
pub fn some_user(dice: &mut Dice) -> Uic {
    match dice.roll(12) {
        0 => OWNER,
        1 => COLLEAGUE,
        2 => STRANGER,
        3 => SYSTEM,
        _ => USER,
    }
}

/// The ID of a file: mostly one that was given, or the master directory.
fn some_file(dice: &mut Dice, trial: &Trial) -> FileId {
    let given = trial.given.as_slice();
    let recent = 1 + dice.roll(12) as usize;
    match dice.roll(8) {
        0 => id(dice.roll(18) as u16, dice.roll(6) as u16),
        1 => id(3, 3),
        _ => match given.get(given.len().saturating_sub(recent)) {
            Some(file) => *file,
            None => MASTER,
        },
    }
}

/// The ID of a directory, mostly.
fn some_directory(dice: &mut Dice, trial: &Trial) -> FileId {
    if dice.roll(3) == 0 {
        MASTER
    } else {
        some_file(dice, trial)
    }
}

/// One of six names.
fn some_name(dice: &mut Dice) -> Name {
    match dice.roll(6) {
        0 | 1 => sub_dir(),
        2 => letter(3, DIR),
        3 => a_txt(),
        4 => dat(b'X'),
        _ => letter(2, TXT),
    }
}

/// A count of blocks: small, or a few hundred.
fn some_count(dice: &mut Dice) -> u32 {
    match dice.roll(40) {
        0 => 65_536,
        1 => 40 + dice.roll(300) as u32,
        2 | 3 | 4 => dice.roll(40) as u32,
        _ => dice.roll(4) as u32,
    }
}

/// A version, or none.
pub fn some_version(dice: &mut Dice) -> Option<u16> {
    match dice.roll(20) {
        0 => Some(32_767),
        1 => Some(32_766),
        2 | 3 | 4 => Some(1 + dice.roll(6) as u16),
        _ => None,
    }
}

/// A pick.
pub fn some_pick(dice: &mut Dice) -> Pick {
    match dice.roll(4) {
        0 => Pick::Lowest,
        1 => Pick::Exact(1 + dice.roll(6) as u16),
        _ => Pick::Highest,
    }
}

/// A Create.
fn some_create(rt: &impl Abort, dice: &mut Dice, name: Name) -> Request {
    Request::Create {
        name,
        version: some_version(dice).unwrap_or(1),
        blocks: some_count(dice),
        stamp: stamp(rt),
    }
}

/// A byte.
fn some_byte(dice: &mut Dice) -> u8 {
    dice.roll(256) as u8
}

/// A request.
fn some_request(rt: &impl Abort, dice: &mut Dice, trial: &Trial) -> Request {
    let file = some_file(dice, trial);
    let dir = some_directory(dice, trial);
    let name = some_name(dice);
    let vbn = dice.roll(5) as u32;
    match dice.roll(28) {
        0 | 1 | 2 | 3 | 4 => some_create(rt, dice, name),
        5 | 6 | 7 | 8 => extend(file, some_count(dice)),
        9 | 10 | 11 => delete(file),
        12 | 13 | 14 | 15 | 16 => enter(dir, name, some_version(dice), file),
        17 | 18 => remove(dir, name, some_pick(dice)),
        19 => look(dir, name, some_pick(dice)),
        20 => read(file, vbn),
        21 => write(file, vbn, Block::new([some_byte(dice); 512])),
        22 => set_user(file, [some_byte(dice); 32]),
        23 => list(dir),
        24 | 25 | 26 => truncate(file, some_count(dice)),
        _ => stat(file),
    }
}

/// How many blocks a request says that it wants.
fn wanted(request: &Request) -> u32 {
    match request {
        Request::Create { blocks, .. } => *blocks,
        Request::Extend { blocks, .. } => *blocks,
        _ => 1,
    }
}

/// Whether a volume may lack something for a request: it may take blocks.
fn may_lack(request: &Request) -> bool {
    matches!(
        request,
        Request::Create { .. } | Request::Extend { .. } | Request::Enter { .. }
    )
}

/// Whether INDEXF.SYS can grow for all the headers that a request may want: it has room for the pointers, and behind the request's own
/// blocks one is free for each number that may be passed over.
fn grows_amply(image: &Image, free: u32, wanted: u32) -> bool {
    let (open, blocks, room) = plain_growth(image);
    4 <= open && 4 <= room && blocks <= free.saturating_sub(wanted)
}

/// Makes the request on both sides, and compares answers, refusals and what is lacking.
pub fn ask_freely(
    rt: &impl Abort,
    trial: &mut Trial,
    who: Uic,
    request: &Request,
) -> Result<(), Fail> {
    assert!(rt; can_be_asked(request));
    trial.nth = trial.nth.wrapping_add(1);
    let free = trial.volume.free_count();
    let numbers = trial.volume.number_count();
    let grows = grows_amply(trial.volume.image(), free, wanted(request));
    let fault = trial.plain.fault(&who, request);
    let answer = trial.volume.request(2, trial.nth, who, *request);
    match &answer {
        Err(refusal) if is_lack(*refusal) => {
            let is_short = free < wanted(request);
            let is_full = *refusal == Refusal::VolumeFull;
            let is_right = may_lack(request)
                && fault.is_none()
                && is_full == is_short
                && (is_short || numbers < 4 && !grows);
            is_so(rt, request, &answer, is_right);
        }
        Err(refusal) => is_so(rt, request, &answer, fault == Some(*refusal)),
        Ok(given) => accepted(rt, trial, who, request, given)?,
    }
    Ok(())
}

/// The plain program answers an accepted request so too. A new file has the ID that the volume gave it.
fn accepted(
    rt: &impl Abort,
    trial: &mut Trial,
    who: Uic,
    request: &Request,
    given: &Answer,
) -> Result<(), Fail> {
    let new = match given {
        Answer::Created(new) => *new,
        _ => NONE,
    };
    let plain = trial.plain.step(who, request, new);
    assert!(rt;
        plain.is_ok_and(|one| one == *given),
        "{request:?} was answered {given:?}"
    );
    if new != NONE {
        trial.given.push(new)?;
    }
    Ok(())
}

/// Fails where this is not so of a request that was answered so.
fn is_so(rt: &impl Abort, request: &Request, answer: &Reply, holds: bool) {
    assert!(rt; holds, "{request:?} was answered {answer:?}");
}

/// The image is sound.
pub fn mounts(rt: &impl Abort, alloc: Global, image: &Image) -> Result<(), Fail> {
    let copy = image.copy()?;
    assert!(rt; mount(alloc, copy).is_ok(), "the image is not sound");
    Ok(())
}

/// Makes a random request.
pub fn ask_any(rt: &impl Abort, trial: &mut Trial, dice: &mut Dice) -> Result<(), Fail> {
    let who = some_user(dice);
    let request = some_request(rt, dice, trial);
    ask_freely(rt, trial, who, &request)
}

/// Makes so many random requests, and compares all after each.
fn try_many(
    rt: &impl Abort,
    alloc: Global,
    trial: &mut Trial,
    seed: u64,
    requests: u32,
) -> Result<(), Fail> {
    let mut dice = Dice::from(seed);
    for _k in 0..requests {
        ask_any(rt, trial, &mut dice)?;
        same_catalogue(rt, alloc, trial)?;
        mounts(rt, alloc, trial.volume.image())?;
    }
    Ok(())
}

/// Where random requests begin.
#[derive(Clone, Copy)]
enum Ground {
    /// A sample of so many blocks.
    Sample(u32),
    /// A sample of so many blocks, so many of which B.DAT has.
    Filled(u32, u32),
    /// Two files of two headers each.
    TwoInTurn,
    /// The sample whose free numbers are almost worn out.
    WornOut,
}

/// A trial on this ground, with room for a long list where it begins with an empty one.
fn trial_on(rt: &impl Abort, alloc: Global, ground: Ground) -> Result<Trial, Fail> {
    match ground {
        Ground::Sample(blocks) => start(rt, alloc, sample_of(blocks).image(alloc)?, 65_536),
        Ground::Filled(blocks, held) => filled(rt, alloc, blocks, held),
        Ground::TwoInTurn => two_in_turn(rt, alloc),
        Ground::WornOut => start(rt, alloc, worn_out(alloc)?, 65_536),
    }
}

/// A trial on a sample of so many blocks, so many of which B.DAT has.
pub fn filled(rt: &impl Abort, alloc: Global, blocks: u32, held: u32) -> Result<Trial, Fail> {
    played(
        rt,
        alloc,
        blocks,
        &[(create(rt, dat(b'B'), held), made(6, 1))],
    )
}

/// Makes so many random requests on this ground, by this seed and the next ones.
fn try_on(
    rt: &(impl Abort + Env),
    alloc: Global,
    ground: Ground,
    seed: u64,
    requests: u32,
) -> Result<(), Fail> {
    for k in 0..times(rt) as u64 {
        let mut trial = trial_on(rt, alloc, ground)?;
        try_many(rt, alloc, &mut trial, seed.wrapping_add(k), requests)?;
    }
    Ok(())
}

#[test]
fn small_volume(rt: HostRuntime) -> Result<(), Fail> {
    try_on(&rt, rt.alloc(), Ground::Sample(40), 0, 350)
}

#[test]
fn volume_of_512_blocks(rt: HostRuntime) -> Result<(), Fail> {
    try_on(&rt, rt.alloc(), Ground::Sample(512), 1_000, 200)
}

#[test]
fn files_of_several_headers(rt: HostRuntime) -> Result<(), Fail> {
    try_on(&rt, rt.alloc(), Ground::TwoInTurn, 2_000, 100)
}

#[test]
fn almost_full_volume(rt: HostRuntime) -> Result<(), Fail> {
    try_on(&rt, rt.alloc(), Ground::Filled(512, 480), 3_000, 200)
}

#[test]
fn large_volume(rt: HostRuntime) -> Result<(), Fail> {
    try_on(&rt, rt.alloc(), Ground::Filled(4_200, 3_900), 4_000, 30)
}

#[test]
fn numbers_near_the_last_sequence(rt: HostRuntime) -> Result<(), Fail> {
    try_on(&rt, rt.alloc(), Ground::WornOut, 5_000, 200)
}

/// The sample volume whose free headers have sequence words near the last.
fn worn_out(alloc: Global) -> Result<Image, Fail> {
    let mut bytes = [(0, 0, 0xff); 22];
    for k in 0..11 {
        bytes[2 * k] = (8 + k as u32, 4, 0xfb + k as u8 % 5);
        bytes[2 * k + 1] = (8 + k as u32, 5, 0xff);
    }
    Variant {
        bytes: &bytes,
        ..sample_of(40)
    }
    .image(alloc)
}
