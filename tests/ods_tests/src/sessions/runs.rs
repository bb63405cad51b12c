//! Runs of sessions on the sample volume of 40 blocks with two files on it, and their settlement.
ghost use Rattle.std.specs.Prelude.{◌≡◌, [], All, IfOk};
ghost use Rattle.ods_share.specs.Scripts.{CanBeRun};

use super::scripts::{add, both, read, remove, script, set_user, write};
use crate::persons::{FIRST, MASTER, SECOND, a_txt, b_txt, bitmap, letter_a, other_attributes};
use crate::volumes::{Variant, added, run, sample_of};
use ods_base::Image;
use ods_mount::mount;
use ods_request::Stamp;
use ods_share::{
    Call, Gate, Outcome, Reply, Report, Script, SettleFault, run_scripts, settle_mounted,
};
use ods_volume::Volume;
use std::alloc::{AllocError, Global};
use std::process::Abort;
use std::sync::Wait;
use std::test::Fail;
use std::thread::Threads;

/// Keeps nobody.
#[derive(Drop)]
pub struct Open;

impl Gate for Open {
    fn before(&self, _session: u16, _nth: u32) {}

    fn held(&self, _session: u16, _nth: u32) {}

    fn after(&self, _session: u16, _nth: u32) {}
}

/// What came of a run: the volume, and of each script its outcome.
#[derive(Drop)]
pub struct Ran {
    pub volume: Volume,
    pub outcomes: Vec<Outcome>,
}

/// The sample volume of 40 blocks with A.TXT, file 6,1, and B.TXT, file 7,1, of one block each.
pub fn two_files(alloc: Global) -> Result<Image, Fail> {
    two_files_below(alloc, 16, &[])
}

/// The same with H.FMAX 40, where INDEXF.SYS has to grow behind the third file: index bits 9 to 16 are set for no file.
pub fn two_files_and_few_numbers(alloc: Global) -> Result<Image, Fail> {
    let mut spent = [(9, true); 8];
    for k in 0..8 {
        spent[k] = (9 + k as u16, true);
    }
    two_files_below(alloc, 40, &spent)
}

/// The same with this H.FMAX and these index bits.
fn two_files_below(
    alloc: Global,
    most_files: u16,
    index_bits: &[(u16, bool)],
) -> Result<Image, Fail> {
    let first = added(6, a_txt()).mapping(&[run(22, 1)]);
    let second = added(7, b_txt()).mapping(&[run(23, 1)]);
    Variant {
        most_files,
        headers: &[(8, first), (9, second)],
        index_bits,
        ..sample_of(40)
    }
    .image(alloc)
}

/// The volume of this image, whose list has room for this many requests.
pub fn volume_of(rt: &impl Abort, alloc: Global, image: Image, limit: u32) -> Result<Volume, Fail>
    ensures { IfOk result (λ v. (v.mounted ≡ image) × (v.entries ≡ []) × (v.limit ≡ limit)) }
{
    assert!(rt; 1 <= limit && limit <= 65_536);
    let Ok(mounted) = mount(alloc, image) else {
        return Err("a sound image, and memory".into());
    };
    match Volume::new(alloc, mounted, limit) {
        Ok(volume) => Ok(volume),
        Err(_) => Err("memory for a volume".into()),
    }
}

/// The sample volume with those two files, whose list has room for so many requests.
pub fn two_file_volume(rt: &impl Abort, alloc: Global, limit: u32) -> Result<Volume, Fail>
    ensures { IfOk result (λ v. v.entries ≡ []) }
{
    volume_of(rt, alloc, two_files(alloc)?, limit)
}

/// The stamp of a program that is given none.
pub fn stamp() -> Result<Stamp, Fail> {
    match Stamp::parse(b"01JAN80000000") {
        Some(stamp) => Ok(stamp),
        None => Err("a stamp".into()),
    }
}

/// Runs these scripts on a volume.
pub fn run_on<G: Gate + Sync, R: Abort + Threads + Wait + Sync>(
    rt: &R,
    alloc: Global,
    volume: Volume,
    scripts: &[Script],
    gate: &G,
) -> Result<Ran, Fail>
    requires { All (λ s. CanBeRun s.commands.items) scripts.now }
{
    assert!(rt; scripts.len() <= 8);
    match run_scripts(rt, alloc, volume, scripts, stamp()?, gate) {
        Ok((volume, outcomes)) => Ok(Ran { volume, outcomes }),
        Err(_) => Err("threads, and memory".into()),
    }
}

/// Two sessions: WRITE, READ and REMOVE by the first, SETUSER and READ by the second, each on a file of its own.
pub fn two_scripts(alloc: Global) -> Result<Vec<Script>, Fail>
    ensures { IfOk result (λ v. All (λ s. CanBeRun s.commands.items) v.items) }
{
    let mut first = script(alloc);
    add(&mut first, write(alloc, FIRST, 1, letter_a())?)?;
    add(&mut first, read(FIRST, 1))?;
    add(&mut first, remove(MASTER, bitmap()))?;
    let mut second = script(alloc);
    add(&mut second, set_user(SECOND, other_attributes()))?;
    add(&mut second, read(SECOND, 1))?;
    both(alloc, first, second)
}

/// What these two sessions left on the volume with two files.
pub fn two_ran<R: Abort + Threads + Wait + Sync>(rt: &R, alloc: Global) -> Result<Ran, Fail> {
    let scripts = two_scripts(alloc)?;
    let volume = two_file_volume(rt, alloc, 4_096)?;
    run_on(rt, alloc, volume, &scripts, &Open)
}

/// The list has so many entries, and so many blocks and numbers are free.
pub fn has_totals(rt: &impl Abort, volume: &Volume, entries: usize, blocks: u32, numbers: u32) {
    assert!(rt; volume.entries().len() == entries);
    assert!(rt; volume.free_count() == blocks);
    assert!(rt; volume.number_count() == numbers);
}

/// A run is settled, and each session has so many calls. A test hands what it owns on: what owns much and may fail at many calls takes
/// long to prove.
pub fn run_settles(rt: &impl Abort, alloc: Global, ran: Ran, lengths: &[u32]) -> Result<(), Fail> {
    let Ran { volume, outcomes } = ran;
    let calls = calls_of(alloc, outcomes)?;
    settles(rt, alloc, &volume, calls.as_slice(), lengths)
}

/// Runs this script alone on a volume: the replies, behind so many calls that settle its list.
pub fn replies_alone<R: Abort + Threads + Wait + Sync>(
    rt: &R,
    alloc: Global,
    volume: Volume,
    script: Script,
    calls: u32,
) -> Result<Vec<Reply>, Fail>
    requires { CanBeRun script.commands.items }
{
    let Ran { volume, outcomes } = run_on(rt, alloc, volume, &[script], &Open)?;
    only_replies(rt, alloc, &volume, outcomes, calls)
}

/// The replies of the only outcome, whose calls, which are so many, settle the list.
fn only_replies(
    rt: &impl Abort,
    alloc: Global,
    volume: &Volume,
    outcomes: Vec<Outcome>,
    calls: u32,
) -> Result<Vec<Reply>, Fail> {
    let mut outcomes = outcomes;
    assert!(rt; outcomes.len() == 1);
    let Some(
        Outcome {
            calls: list,
            replies,
        },
    ) = outcomes.pop()
    else {
        return Err("an outcome".into());
    };
    settles(rt, alloc, volume, &[list], &[calls])?;
    Ok(replies)
}

/// The calls of each session.
pub fn calls_of(alloc: Global, outcomes: Vec<Outcome>) -> Result<Vec<Vec<Call>>, AllocError> {
    let mut calls = Vec::new(alloc);
    for outcome in outcomes {
        calls.push(outcome.calls)?;
    }
    Ok(calls)
}

/// The list of the volume is settled with these calls, and each session has so many.
pub fn settles(
    rt: &impl Abort,
    alloc: Global,
    volume: &Volume,
    calls: &[Vec<Call>],
    lengths: &[u32],
) -> Result<(), Fail> {
    match settle_mounted(alloc, volume, calls) {
        Ok(
            Report {
                entries,
                of_session,
            },
        ) => {
            assert!(rt; entries as usize == volume.entries().len());
            assert!(rt; of_session.as_slice() == lengths);
            Ok(())
        }
        Err(SettleFault::NoMemory) => Err("memory for a report".into()),
        Err(SettleFault::Unmatched) => {
            assert!(rt; false, "an honest run is unmatched");
            Ok(())
        }
    }
}
