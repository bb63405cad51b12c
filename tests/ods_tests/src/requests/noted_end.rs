//! The note of where a chain ends spares an Extend the walk along the headers: behind an Extend of another file it takes less than behind those of
//! nine others, whose notes take all eight places.
use super::rows::{create, dat, extend};
use crate::persons::{FIRST, SECOND, USER, a_txt, b_txt, indexf};
use crate::volumes::{FileHeader, Variant, added, reserved, run, sample_of};
use ods_base::{FileId, Image};
use ods_mount::mount;
use ods_request::Answer;
use ods_volume::Volume;
use std::alloc::Global;
use std::process::Abort;
use std::test::Fail;
use std::time::{Clock, Duration, Instant};

/// How many headers the long file has behind its first.
const HEADERS: u16 = 200;

/// How many Extends are timed in a round, and how many rounds there are.
const EXTENDS: u32 = 10;

const ROUNDS: u32 = 8;

/// How many volumes are tried at most.
const VOLUMES: u32 = 8;

/// The volume of 4,200 blocks with A.TXT, file 6,1, of 201 headers with a block each, and B.TXT, file 7,1, of one header. The headers behind the
/// first are those of the files 17 to 216, from LBN 512 on.
fn long_and_short(alloc: Global) -> Result<Image, Fail> {
    let mut headers = Vec::new(alloc);
    let index = reserved(1, indexf()).mapping(&[run(0, 19), run(512, HEADERS)]);
    headers.push((3, index))?;
    headers.push((8, added(6, a_txt()).before(17).mapping(&[run(1_000, 1)])))?;
    headers.push((9, added(7, b_txt()).mapping(&[run(3_000, 1)])))?;
    for k in 0..HEADERS {
        let header = FileHeader {
            segment: (k + 1) as u8,
            next: if k + 1 < HEADERS { 18 + k } else { 0 },
            ..added(17 + k, a_txt())
        };
        let place = k as u32;
        headers.push((512 + place, header.mapping(&[run(1_002 + 2 * place, 1)])))?;
    }
    Variant {
        most_files: 400,
        headers: headers.as_slice(),
        ..sample_of(4_200)
    }
    .image(alloc)
}

/// Extends a file by a block.
fn grow(rt: &impl Abort, volume: &mut Volume, file: FileId) {
    let answer = volume.request(1, 1, USER, extend(file, 1));
    assert!(rt; matches!(answer, Ok(Answer::Extended(_))), "{answer:?}");
}

/// Nine new files: more than there are places for notes.
fn nine_files(rt: &impl Abort, alloc: Global, volume: &mut Volume) -> Result<Vec<FileId>, Fail> {
    let mut files = Vec::new(alloc);
    for letter in b'A'..=b'I' {
        let answer = volume.request(1, 1, USER, create(rt, dat(letter), 1));
        let Ok(Answer::Created(file)) = answer else {
            return Err("a new file".into());
        };
        files.push(file)?;
    }
    Ok(files)
}

/// How long an Extend of the long file takes at least, behind one of each of these files.
fn least(
    rt: &(impl Abort + Clock),
    volume: &mut Volume,
    before: &[FileId],
) -> Result<Duration, Fail> {
    let mut least = Duration::from_secs(900);
    for _k in 0..EXTENDS {
        for file in before {
            grow(rt, volume, *file);
        }
        let begun = Instant::now(rt)?;
        grow(rt, volume, FIRST);
        least = least.min(begun.elapsed(rt)?);
    }
    Ok(least)
}

/// How long an Extend takes at least, in microseconds: where the end is noted, and where it is not.
fn least_of_both(rt: &(impl Abort + Clock), alloc: Global) -> Result<(u128, u128), Fail> {
    let Ok(mounted) = mount(alloc, long_and_short(alloc)?) else {
        return Err("a sound image, and memory".into());
    };
    let Ok(mut volume) = Volume::new(alloc, mounted, 65_536) else {
        return Err("memory for a volume".into());
    };
    let others = nine_files(rt, alloc, &mut volume)?;
    let mut noted = Duration::from_secs(900);
    let mut walked = Duration::from_secs(900);
    for _round in 0..ROUNDS {
        noted = noted.min(least(rt, &mut volume, &[SECOND])?);
        walked = walked.min(least(rt, &mut volume, &others)?);
    }
    Ok((noted.as_micros(), walked.as_micros()))
}

/// Without the notes both walk along 201 headers. The least of many times is that of an Extend beside which the machine had no other work. A busy machine
/// may have other work beside all of a volume's, so several volumes are tried.
#[test]
fn noted_extend_walks_along_nothing(rt: HostRuntime) -> Result<(), Fail> {
    let alloc = rt.alloc();
    let (mut noted, mut walked) = least_of_both(&rt, alloc)?;
    for _volume in 1..VOLUMES {
        if 3 * noted < 2 * walked {
            return Ok(());
        }
        (noted, walked) = least_of_both(&rt, alloc)?;
    }
    assert!(rt; 3 * noted < 2 * walked, "{noted} and {walked} microseconds");
    Ok(())
}
