//! The note of a directory's names spares a look-up the blocks that have no such name. Of two directories with as many names the one that is noted is
//! looked into in less time. Entering names notes a directory, and so do look-ups in a row.
use super::rows::{enter, letter, look};
use super::timed::{accept, long_directory, volume_of};
use crate::persons::{FIRST, TXT};
use ods_base::{FileId, Pick};
use ods_volume::Volume;
use std::process::Abort;
use std::test::Fail;
use std::time::{Clock, Duration, Instant};

/// How many versions of A.TXT stand before B.TXT, 32 in a block.
const NAMES: u16 = 600;

/// So many look-ups in a row note a directory, at least.
const IN_A_ROW: u32 = 8;

/// How many look-ups are timed in each directory.
const LOOKS: u32 = 60;

/// A directory of many names with B.TXT behind them. It is noted then, and no other.
fn directory_of_many(rt: &impl Abort, volume: &mut Volume) -> Result<FileId, Fail> {
    let dir = long_directory(rt, volume, NAMES)?;
    accept(rt, volume, enter(dir, letter(2, TXT), None, FIRST));
    Ok(dir)
}

/// Looks B.TXT up in a directory.
fn find_b_txt(rt: &impl Abort, volume: &mut Volume, dir: FileId) {
    accept(rt, volume, look(dir, letter(2, TXT), Pick::Highest));
}

/// How long a look-up in each of two directories takes at least, in nanoseconds, where they take turns.
fn least_of_both(
    rt: &(impl Abort + Clock),
    volume: &mut Volume,
    one: FileId,
    other: FileId,
) -> Result<(u128, u128), Fail> {
    let mut first = Duration::from_secs(900);
    let mut second = Duration::from_secs(900);
    for _k in 0..LOOKS {
        let begun = Instant::now(rt)?;
        find_b_txt(rt, volume, one);
        first = first.min(begun.elapsed(rt)?);
        let begun = Instant::now(rt)?;
        find_b_txt(rt, volume, other);
        second = second.min(begun.elapsed(rt)?);
    }
    Ok((first.as_nanos(), second.as_nanos()))
}

/// Without the notes both take as long. The least of many times is that of a look-up beside which the machine had no other work.
#[test]
fn noted_directory_is_looked_into_faster(rt: HostRuntime) -> Result<(), Fail> {
    let mut volume = volume_of(rt.alloc(), 4_200)?;
    let old = directory_of_many(&rt, &mut volume)?;
    let new = directory_of_many(&rt, &mut volume)?;
    let (read, noted) = least_of_both(&rt, &mut volume, old, new)?;
    assert!(rt; 2 * noted < read, "{noted} and {read} nanoseconds");
    for _k in 0..IN_A_ROW {
        find_b_txt(&rt, &mut volume, old);
    }
    let (noted, read) = least_of_both(&rt, &mut volume, old, new)?;
    assert!(rt; 2 * noted < read, "{noted} and {read} nanoseconds");
    Ok(())
}
