//! Replies that sessions print as they give them, beside those that are printed behind a run.
use super::runs::{Open, Ran, stamp, two_file_volume, two_ran, two_scripts};
use ods_cli::Printed;
use ods_script::sessions_text;
use ods_share::{Ended, Outcome, Reply, run_keeping};
use std::alloc::{AllocError, Global};
use std::test::Fail;

/// The replies of each outcome.
fn replies_of(alloc: Global, outcomes: Vec<Outcome>) -> Result<Vec<Vec<Reply>>, AllocError> {
    let mut all = Vec::new(alloc);
    for outcome in outcomes {
        all.push(outcome.replies)?;
    }
    Ok(all)
}

/// What the sessions printed, each behind its line.
fn printed_text(alloc: Global, ended: Vec<Ended<Printed>>) -> Result<String, AllocError> {
    let mut text = String::new(alloc);
    let mut number: u16 = 1;
    for one in ended {
        write!(text, "session {number}\n")?;
        text.push_str(one.kept.text.as_str())?;
        number += 1;
    }
    Ok(text)
}

#[test]
fn printed_at_once_or_behind_the_run(rt: HostRuntime) -> Result<(), Fail> {
    let alloc = rt.alloc();
    let scripts = two_scripts(alloc)?;
    let Ran { outcomes, .. } = two_ran(&rt, alloc)?;
    let replies = replies_of(alloc, outcomes)?;
    let behind = sessions_text(alloc, &scripts, &replies)?;
    let volume = two_file_volume(&rt, alloc, 4_096)?;
    let Ok((volume, ended)) = run_keeping::<Printed, _, _>(
        &rt,
        alloc,
        volume,
        &scripts,
        stamp()?,
        &Open,
    ) else {
        return Err("threads, and memory".into());
    };
    assert_eq!(rt; volume.entries().len(), 5);
    let at_once = printed_text(alloc, ended)?;
    assert!(rt; at_once.as_str() == behind.as_str());
    assert!(rt; behind.as_str().starts_with("session 1\n"));
    Ok(())
}
