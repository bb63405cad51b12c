//! Eight sessions of commands by seeds: each run settles, and its list, replayed by the plain program, gives what the blocks show.
use super::any_scripts::{Mix, eight_scripts};
use super::runs::{Open, Ran, calls_of, run_on, two_files, two_files_and_few_numbers, volume_of};
use crate::persons::{NONE, USER};
use crate::reader::{image_of, plain_catalogue, plain_last};
use ods_base::FileId;
use ods_plain::Catalogue;
use ods_request::{Answer, Entry, Request};
use ods_share::{Outcome, Reply, Script, settle_mounted};
use ods_volume::Volume;
use std::alloc::Global;
use std::process::Abort;
use std::sync::Wait;
use std::test::Fail;
use std::thread::Threads;

/// How many runs a test has. The next seeds are those of another test, so that tests run side by side.
const RUNS: u64 = 5;

/// 500 commands in each script, and no views.
const MIX: Mix = Mix {
    commands: 500,
    has_views: false,
    grows: false,
};

/// The scripts of a seed, and what came of them.
#[derive(Drop)]
pub struct RanBySeed {
    pub scripts: Vec<Script>,
    pub ran: Ran,
}

/// Runs the eight scripts of a seed on a volume with two files: each command has a reply.
pub fn run_by_seed<R: Abort + Threads + Wait + Sync>(
    rt: &R,
    alloc: Global,
    seed: u64,
    mix: Mix,
) -> Result<RanBySeed, Fail> {
    let image = if mix.grows {
        two_files_and_few_numbers(alloc)?
    } else {
        two_files(alloc)?
    };
    let volume = volume_of(rt, alloc, image, 4_096)?;
    let scripts = eight_scripts(alloc, seed, mix)?;
    let ran = run_on(rt, alloc, volume, scripts.as_slice(), &Open)?;
    assert!(rt; ran.outcomes.len() == 8);
    for outcome in &ran.outcomes {
        assert!(rt; outcome.replies.len() == mix.commands as usize);
    }
    Ok(RanBySeed { scripts, ran })
}

/// The list of a run is settled with its calls.
pub fn seed_settles(rt: &impl Abort, alloc: Global, seed: u64, ran: Ran) -> Result<(), Fail> {
    let Ran { volume, outcomes } = ran;
    let calls = calls_of(alloc, outcomes)?;
    let is_settled = settle_mounted(alloc, &volume, &calls).is_ok();
    assert!(rt; is_settled, "seed {seed}");
    Ok(())
}

/// Makes the step of an entry: the plain program answers it as the volume did.
pub fn replay(rt: &impl Abort, plain: &mut Catalogue, entry: &Entry) -> Result<(), Fail> {
    let new = match &entry.answer {
        Answer::Created(file) => *file,
        _ => NONE,
    };
    match plain.step(entry.who, &entry.request.get(), new) {
        Ok(answer) => {
            assert!(rt; answer == entry.answer, "{:?}", entry.request);
            Ok(())
        }
        Err(_) => Err("no step of the plain program".into()),
    }
}

/// The answers among the replies are those of the calls.
fn replies_are_answers(rt: &impl Abort, outcome: &Outcome) {
    let mut calls = outcome.calls.iter();
    for reply in &outcome.replies {
        if let Reply::Got(answer) = reply {
            let is_next = match calls.next() {
                Some(call) => *answer == call.answer,
                None => false,
            };
            assert!(rt; is_next, "a reply is no call's answer");
        }
    }
    assert!(rt; calls.next().is_none(), "a call has no reply");
}

/// Both catalogues show the same of a file.
fn same_file(rt: &impl Abort, shown: &mut Catalogue, plain: &mut Catalogue, file: FileId) {
    for request in [
        Request::Stat { file },
        Request::List { dir: file },
        Request::Read { file, vbn: 1 },
        Request::Read { file, vbn: 2 },
        Request::Read { file, vbn: 3 },
    ] {
        let answer = shown.step(USER, &request, NONE);
        assert!(rt;
            answer == plain.step(USER, &request, NONE),
            "{request:?} is {answer:?}"
        );
    }
}

/// The blocks show what the plain program makes of the list.
fn is_replayed(rt: &impl Abort, alloc: Global, volume: &Volume) -> Result<(), Fail> {
    let mounted = image_of(alloc, volume.mounted())?;
    let mut plain = plain_catalogue(alloc, &mounted)?;
    let entries = volume.entries();
    for at in 0..entries.len() {
        replay(rt, &mut plain, &entries.copy(at)?)?;
    }
    let mut shown = plain_catalogue(alloc, volume.image())?;
    for number in 1..plain_last(volume.image()).wrapping_add(1) {
        for sequence in 1..17 {
            same_file(rt, &mut shown, &mut plain, FileId { number, sequence });
        }
    }
    Ok(())
}

/// Each run of a mix settles, and is replayed, from a seed on. Returns in how many INDEXF.SYS grew.
fn settle_from<R: Abort + Threads + Wait + Sync>(
    rt: &R,
    alloc: Global,
    first: u64,
    mix: Mix,
) -> Result<u32, Fail> {
    let mut growths = 0u32;
    for seed in first..first.wrapping_add(RUNS) {
        let RanBySeed { ran, .. } = run_by_seed(rt, alloc, seed, mix)?;
        for outcome in &ran.outcomes {
            replies_are_answers(rt, outcome);
        }
        is_replayed(rt, alloc, &ran.volume)?;
        growths = growths.wrapping_add(u32::from(16 < plain_last(ran.volume.image())));
        seed_settles(rt, alloc, seed, ran)?;
    }
    Ok(growths)
}

/// INDEXF.SYS grows in each run from a seed on.
fn all_grow<R: Abort + Threads + Wait + Sync>(
    rt: &R,
    alloc: Global,
    first: u64,
) -> Result<(), Fail> {
    let growths = settle_from(rt, alloc, first, Mix { grows: true, ..MIX })?;
    assert!(rt; growths == RUNS as u32, "INDEXF.SYS grew in {growths} runs");
    Ok(())
}

#[test]
fn eight_sessions_of_seed_0_on_settle(rt: HostRuntime) -> Result<(), Fail> {
    settle_from(&rt, rt.alloc(), 0, MIX)?;
    Ok(())
}

#[test]
fn eight_sessions_of_seed_5_on_settle(rt: HostRuntime) -> Result<(), Fail> {
    settle_from(&rt, rt.alloc(), 5, MIX)?;
    Ok(())
}

#[test]
fn eight_sessions_of_seed_10_on_settle(rt: HostRuntime) -> Result<(), Fail> {
    settle_from(&rt, rt.alloc(), 10, MIX)?;
    Ok(())
}

#[test]
fn eight_sessions_of_seed_15_on_settle(rt: HostRuntime) -> Result<(), Fail> {
    settle_from(&rt, rt.alloc(), 15, MIX)?;
    Ok(())
}

#[test]
fn eight_sessions_of_seed_0_on_settle_where_the_index_grows(rt: HostRuntime) -> Result<(), Fail> {
    all_grow(&rt, rt.alloc(), 0)
}

#[test]
fn eight_sessions_of_seed_5_on_settle_where_the_index_grows(rt: HostRuntime) -> Result<(), Fail> {
    all_grow(&rt, rt.alloc(), 5)
}

#[test]
fn eight_sessions_of_seed_10_on_settle_where_the_index_grows(rt: HostRuntime) -> Result<(), Fail> {
    all_grow(&rt, rt.alloc(), 10)
}

#[test]
fn eight_sessions_of_seed_15_on_settle_where_the_index_grows(rt: HostRuntime) -> Result<(), Fail> {
    all_grow(&rt, rt.alloc(), 15)
}
