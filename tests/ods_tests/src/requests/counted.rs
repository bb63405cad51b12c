//! What a volume counts beside its bitmap: a published sequence on the volume of 4,200 blocks, whose storage bitmap has two blocks, and
//! random requests there, after each of which the counts are those of the bits.
use super::growing::header_of;
use super::random::{ask_any, filled, times};
use super::rows::{create, dat, delete, extend, made};
use super::trial::{Trial, counts_bits, has_counts, has_totals, on_sample, plays};
use crate::dice::Dice;
use crate::persons::FIRST;
use ods_request::{Answer, Refusal};
use ods_space::locate;
use std::alloc::Global;
use std::process::Abort;
use std::test::Fail;

/// A file takes all blocks that the first block of the bitmap has, in 16 pointers.
fn takes_first(rt: &impl Abort, alloc: Global, it: &mut Trial) -> Result<(), Fail> {
    has_counts(rt, it, &[4_073, 104]);
    plays(rt, alloc, it, &[(create(rt, dat(b'A'), 4_073), made(6, 1))])?;
    assert!(rt; header_of(it.volume.image(), 6)?.runs().len() == 16);
    has_counts(rt, it, &[0, 104]);
    Ok(())
}

/// Its next block is the first one of the second, and one more than the second has is too many.
fn takes_second(rt: &impl Abort, alloc: Global, it: &mut Trial) -> Result<(), Fail> {
    plays(
        rt,
        alloc,
        it,
        &[(extend(FIRST, 1), Ok(Answer::Extended(4_074)))],
    )?;
    let disk = it.volume.disk();
    assert!(rt; locate(&disk, 6, 4_074) == Some(4_096));
    has_counts(rt, it, &[0, 103]);
    plays(
        rt,
        alloc,
        it,
        &[(extend(FIRST, 104), Err(Refusal::VolumeFull))],
    )
}

/// The rest is taken, no block is left then, and all come back.
fn gives_all_back(rt: &impl Abort, alloc: Global, it: &mut Trial) -> Result<(), Fail> {
    let taken = [
        (extend(FIRST, 103), Ok(Answer::Extended(4_177))),
        (extend(FIRST, 1), Err(Refusal::VolumeFull)),
        (create(rt, dat(b'B'), 1), Err(Refusal::VolumeFull)),
    ];
    plays(rt, alloc, it, &taken)?;
    has_counts(rt, it, &[0, 0]);
    plays(rt, alloc, it, &[(delete(FIRST), Ok(Answer::Done))])?;
    has_counts(rt, it, &[4_073, 104]);
    has_totals(rt, it, (4, 4_177, 11));
    Ok(())
}

#[test]
fn first_bitmap_block_is_used_up(rt: HostRuntime) -> Result<(), Fail> {
    let mut it = on_sample(&rt, rt.alloc(), 4_200)?;
    takes_first(&rt, rt.alloc(), &mut it)?;
    takes_second(&rt, rt.alloc(), &mut it)?;
    gives_all_back(&rt, rt.alloc(), &mut it)
}

/// Makes 2,000 random requests, and counts the bits after each.
fn count_along(rt: &impl Abort, alloc: Global, it: &mut Trial, seed: u64) -> Result<(), Fail> {
    let mut dice = Dice::from(seed);
    for _k in 0..2_000 {
        ask_any(rt, it, &mut dice)?;
        counts_bits(rt, alloc, it)?;
    }
    Ok(())
}

#[test]
fn counts_are_those_of_the_bits(rt: HostRuntime) -> Result<(), Fail> {
    for seed in 0..2 * times(&rt) as u64 {
        let mut it = filled(&rt, rt.alloc(), 4_200, 3_900)?;
        count_along(&rt, rt.alloc(), &mut it, 6_000 + seed)?;
    }
    Ok(())
}
