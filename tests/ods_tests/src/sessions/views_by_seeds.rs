//! Eight sessions of requests and views by seeds: each view is the answer of some beginning of the list, which is no shorter than what its
//! session was answered and shown before. The list settles.
use super::any_scripts::Mix;
use super::seeds::{RanBySeed, replay, run_by_seed, seed_settles};
use crate::persons::{NONE, USER};
use crate::reader::{image_of, plain_catalogue, plain_last};
use ods_base::{FileId, Uic};
use ods_plain::{Catalogue, StepError};
use ods_request::{AnswerForm, CompactAnswer, Request};
use ods_share::{Action, Command, Id, Look, Outcome, Reply, Script};
use ods_volume::{Entries, Volume};
use std::alloc::Global;
use std::process::Abort;
use std::sync::Wait;
use std::test::Fail;
use std::thread::Threads;

/// How many runs a test has. The next seeds are those of another test, so that tests run side by side.
const RUNS: u64 = 25;

/// 60 commands in each script, half of them views.
const MIX: Mix = Mix {
    commands: 60,
    has_views: true,
    grows: false,
};

/// The list of a volume, replayed by the plain program as far as a session has been answered and shown.
#[derive(Drop)]
struct Replay<'a> {
    entries: &'a Entries,
    session: u16,
    plain: Catalogue,
    made: usize,
    who: Uic,
    last: Option<FileId>,
}

impl<'a> Replay<'a> {
    /// Whether the plain program answers so now.
    fn is_answered(&mut self, query: &Request, reply: &Reply) -> bool {
        match (self.plain.step(self.who, query, NONE), reply) {
            (Ok(answer), Reply::Got(other)) => other.is(&answer),
            (Err(StepError::Refused(refusal)), Reply::No(other)) => refusal == *other,
            _ => false,
        }
    }

    /// Makes steps up to the entry of the session's command.
    fn reach(&mut self, rt: &impl Abort, nth: u32) -> Result<(), Fail> {
        let entries = self.entries;
        for k in self.made..entries.len() {
            replay(rt, &mut self.plain, &entries.copy(k)?)?;
            if entries.session(k) == self.session && entries.nth(k) == nth {
                self.made = k + 1;
                return Ok(());
            }
        }
        Err("a session's request comes before what it was shown".into())
    }

    /// Makes steps until a view is answered so.
    fn find(&mut self, rt: &impl Abort, query: &Request, reply: &Reply) -> Result<(), Fail> {
        if self.is_answered(query, reply) {
            return Ok(());
        }
        let entries = self.entries;
        for k in self.made..entries.len() {
            replay(rt, &mut self.plain, &entries.copy(k)?)?;
            if self.is_answered(query, reply) {
                self.made = k + 1;
                return Ok(());
            }
        }
        Err("a view shows no version from then on".into())
    }

    /// Follows a command of the session to a version that shows what it was replied.
    fn follow(&mut self, rt: &impl Abort, command: &Command, reply: &Reply) -> Result<(), Fail> {
        match &command.action {
            Action::User(who) => self.who = *who,
            Action::Submit(_) => {
                if let Reply::Got(_) = reply {
                    self.reach(rt, command.nth)?;
                }
            }
            Action::View(look) => match query_of(self.last, look) {
                Some(query) => self.find(rt, &query, reply)?,
                None => assert!(rt; *reply == Reply::Bad, "{reply:?} to a view of nothing"),
            },
            Action::Bad => {}
        }
        if let Reply::Got(answer) = reply {
            self.last = named(answer).or(self.last);
        }
        Ok(())
    }
}

/// The file that `$` stands for from this answer on, where it names one.
fn named(answer: &CompactAnswer) -> Option<FileId> {
    match answer.form() {
        AnswerForm::Created(file) => Some(*file),
        AnswerForm::Found(file, _) => Some(*file),
        AnswerForm::Removed(file, _) => Some(*file),
        _ => None,
    }
}

/// The file that is meant.
fn meant(last: Option<FileId>, id: Id) -> Option<FileId> {
    match id {
        Id::Given(file) => Some(file),
        Id::Last => last,
    }
}

/// The query of a view; none where `$` stands for no file.
fn query_of(last: Option<FileId>, look: &Look) -> Option<Request> {
    match *look {
        Look::LookUp { dir, name, pick } => {
            let dir = meant(last, dir)?;
            Some(Request::LookUp { dir, name, pick })
        }
        Look::Read { file, vbn } => {
            let file = meant(last, file)?;
            Some(Request::Read { file, vbn })
        }
        Look::Stat { file } => {
            let file = meant(last, file)?;
            Some(Request::Stat { file })
        }
    }
}

/// What a session was shown is in order, and no older than what it did before.
fn is_shown_in_order(
    rt: &impl Abort,
    alloc: Global,
    volume: &Volume,
    session: u16,
    script: &Script,
    outcome: &Outcome,
) -> Result<(), Fail> {
    let mounted = image_of(alloc, volume.mounted())?;
    let mut replay = Replay {
        entries: volume.entries(),
        session,
        plain: plain_catalogue(alloc, &mounted)?,
        made: 0,
        who: USER,
        last: None,
    };
    for (command, reply) in script.commands.iter().zip(outcome.replies.iter()) {
        replay.follow(rt, command, reply)?;
    }
    Ok(())
}

/// The views of each run of a mix are in order, from a seed on. Returns in how many INDEXF.SYS grew.
fn show_from<R: Abort + Threads + Wait + Sync>(
    rt: &R,
    alloc: Global,
    first: u64,
    mix: Mix,
) -> Result<u32, Fail> {
    let mut growths = 0u32;
    for seed in first..first.wrapping_add(RUNS) {
        let RanBySeed { scripts, ran } = run_by_seed(rt, alloc, seed, mix)?;
        let mut session = 0u16;
        for (script, outcome) in scripts.iter().zip(ran.outcomes.iter()) {
            session = session.wrapping_add(1);
            is_shown_in_order(rt, alloc, &ran.volume, session, script, outcome)?;
        }
        growths = growths.wrapping_add(u32::from(16 < plain_last(ran.volume.image())));
        seed_settles(rt, alloc, seed, ran)?;
    }
    Ok(growths)
}

/// The views of each run are in order, from a seed on, where INDEXF.SYS grows in half of them or more.
fn show_where_the_index_grows<R: Abort + Threads + Wait + Sync>(
    rt: &R,
    alloc: Global,
    first: u64,
) -> Result<(), Fail> {
    let growths = show_from(rt, alloc, first, Mix { grows: true, ..MIX })?;
    assert!(rt;
        2 * growths >= RUNS as u32,
        "INDEXF.SYS grew in {growths} runs"
    );
    Ok(())
}

#[test]
fn views_of_eight_sessions_are_in_order(rt: HostRuntime) -> Result<(), Fail> {
    show_from(&rt, rt.alloc(), 0, MIX)?;
    Ok(())
}

#[test]
fn views_of_later_seeds_are_in_order(rt: HostRuntime) -> Result<(), Fail> {
    show_from(&rt, rt.alloc(), RUNS, MIX)?;
    Ok(())
}

#[test]
fn views_are_in_order_where_the_index_grows(rt: HostRuntime) -> Result<(), Fail> {
    show_where_the_index_grows(&rt, rt.alloc(), 0)
}

#[test]
fn views_of_later_seeds_are_in_order_where_the_index_grows(rt: HostRuntime) -> Result<(), Fail> {
    show_where_the_index_grows(&rt, rt.alloc(), RUNS)
}
