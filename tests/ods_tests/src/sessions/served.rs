//! What sessions reply.
ghost use Rattle.std.specs.Prelude.{All, IfOk};
ghost use Rattle.ods_share.specs.Scripts.{CanBeRun};

use super::runs::{Open, has_totals, replies_alone, run_on, run_settles, two_file_volume, two_ran};
use super::scripts::{
    add, alone, look_up, read, read_last, remove, script, stat, stat_last, write,
};
use crate::persons::{
    FIRST, MASTER, SECOND, STRANGER, USER, a_txt, bitmap, corimg, index_stat, letter_a, old_block,
    reserved_id,
};
use ods_request::{Answer, Refusal};
use ods_share::{Action, Id, Look, Outcome, Reply, Script};
use std::alloc::Global;
use std::process::Abort;
use std::test::Fail;

/// A reply without its answer.
#[derive(Clone, Copy, PartialEq, Eq, Debug)]
pub enum Short {
    User,
    Got,
    No(Refusal),
    Closed,
    Bad,
}

fn in_short(reply: &Reply) -> Short {
    match reply {
        Reply::User => Short::User,
        Reply::Got(_) => Short::Got,
        Reply::No(refusal) => Short::No(*refusal),
        Reply::Closed => Short::Closed,
        Reply::Bad => Short::Bad,
    }
}

/// The replies are these.
pub fn replied(rt: &impl Abort, replies: &[Reply], wanted: &[Short]) {
    assert!(rt; replies.len() == wanted.len());
    for (reply, wanted) in replies.iter().zip(wanted.iter()) {
        assert!(rt; in_short(reply) == *wanted, "{reply:?}");
    }
}

/// Whether this reply has this answer.
pub fn has_answer(reply: Option<&Reply>, wanted: &Answer) -> bool {
    match reply {
        Some(Reply::Got(answer)) => answer.is(wanted),
        _ => false,
    }
}

/// The answer to one of the calls of an outcome, which has this number.
fn answered(rt: &impl Abort, outcome: &Outcome, call: usize, nth: u32, wanted: Answer) {
    match outcome.calls.as_slice().get(call) {
        Some(call) => assert!(rt; call.nth == nth && call.answer.is(&wanted), "{call:?}"),
        None => assert!(rt; false, "no call {call}"),
    }
}

/// What the first of the two sessions is replied.
fn first_is_served(rt: &impl Abort, outcome: &Outcome) {
    replied(rt, &outcome.replies, &[Short::Got, Short::Got, Short::Got]);
    answered(rt, outcome, 0, 1, Answer::Done);
    answered(rt, outcome, 1, 2, Answer::Bytes(letter_a()));
    answered(rt, outcome, 2, 3, Answer::Removed(reserved_id(2), 1));
}

/// What the second one is replied.
fn second_is_served(rt: &impl Abort, outcome: &Outcome) {
    replied(rt, &outcome.replies, &[Short::Got, Short::Got]);
    answered(rt, outcome, 0, 1, Answer::Done);
    answered(rt, outcome, 1, 2, Answer::Bytes(old_block()));
}

#[test]
fn two_sessions_are_served(rt: HostRuntime) -> Result<(), Fail> {
    let alloc = rt.alloc();
    let ran = two_ran(&rt, alloc)?;
    match ran.outcomes.as_slice() {
        [first, second] => {
            first_is_served(&rt, first);
            second_is_served(&rt, second);
        }
        _ => assert!(rt; false, "two outcomes"),
    }
    has_totals(&rt, &ran.volume, 5, 16, 9);
    run_settles(&rt, alloc, ran, &[3, 2])
}

/// Six lines: `$` before it stands for a file, a user with few rights, what he may not and may do, and `$` twice, once in a view.
fn first_lines(alloc: Global) -> Result<Script, Fail>
    ensures { IfOk result (λ s. CanBeRun s.commands.items) }
{
    let mut script = script(alloc);
    add(&mut script, stat_last())?;
    add(&mut script, Action::User(STRANGER))?;
    add(&mut script, write(alloc, FIRST, 1, letter_a())?)?;
    add(&mut script, look_up(MASTER, corimg()))?;
    add(&mut script, read_last(1))?;
    add(&mut script, Action::View(Look::Stat { file: Id::Last }))?;
    Ok(script)
}

/// Six more: a line that is no command, a user with more rights, what he is answered, and `$` again.
fn more_lines(script: &mut Script) -> Result<(), Fail>
    requires { CanBeRun script.old.commands.items }
    ensures { CanBeRun script.new.commands.items }
{
    add(script, Action::Bad)?;
    add(script, Action::User(USER))?;
    add(script, remove(MASTER, bitmap()))?;
    add(script, read_last(1))?;
    add(script, look_up(MASTER, a_txt()))?;
    add(script, stat(reserved_id(1)))
}

/// What the session of these lines is replied.
fn lines_are_served(rt: &impl Abort, only: &Outcome) {
    replied(
        rt,
        &only.replies,
        &[
            Short::Bad,
            Short::User,
            Short::No(Refusal::Denied),
            Short::Got,
            Short::No(Refusal::NoSuchBlock),
            Short::Got,
            Short::Bad,
            Short::User,
            Short::Got,
            Short::No(Refusal::Reserved),
            Short::No(Refusal::NoSuchName),
            Short::Got,
        ],
    );
    answered(rt, only, 0, 4, Answer::Found(reserved_id(5), 1));
    answered(rt, only, 1, 9, Answer::Removed(reserved_id(2), 1));
    answered(rt, only, 2, 12, Answer::Info(index_stat()));
}

/// The twelve lines.
fn all_lines(alloc: Global) -> Result<Vec<Script>, Fail>
    ensures { IfOk result (λ v. All (λ s. CanBeRun s.commands.items) v.items) }
{
    let mut script = first_lines(alloc)?;
    more_lines(&mut script)?;
    alone(alloc, script)
}

#[test]
fn commands_that_are_no_requests(rt: HostRuntime) -> Result<(), Fail> {
    let alloc = rt.alloc();
    let scripts = all_lines(alloc)?;
    let volume = two_file_volume(&rt, alloc, 4_096)?;
    let ran = run_on(&rt, alloc, volume, &scripts, &Open)?;
    match ran.outcomes.as_slice() {
        [only] => lines_are_served(&rt, only),
        _ => assert!(rt; false, "one outcome"),
    }
    run_settles(&rt, alloc, ran, &[3])
}

/// Four Reads, of which one names no block.
fn four_reads(alloc: Global) -> Result<Script, Fail>
    ensures { IfOk result (λ s. CanBeRun s.commands.items) }
{
    let mut script = script(alloc);
    add(&mut script, read(FIRST, 1))?;
    add(&mut script, read(SECOND, 2))?;
    add(&mut script, read(SECOND, 1))?;
    add(&mut script, read(SECOND, 1))?;
    Ok(script)
}

/// What they are replied where the list has room for two.
const FULL_AT_TWO: [Short; 4] = [
    Short::Got,
    Short::No(Refusal::NoSuchBlock),
    Short::Got,
    Short::No(Refusal::ListFull),
];

#[test]
fn full_list_refuses_sessions(rt: HostRuntime) -> Result<(), Fail> {
    let alloc = rt.alloc();
    let volume = two_file_volume(&rt, alloc, 2)?;
    let replies = replies_alone(&rt, alloc, volume, four_reads(alloc)?, 2)?;
    replied(&rt, &replies, &FULL_AT_TWO);
    Ok(())
}

#[test]
fn no_scripts_and_empty_scripts(rt: HostRuntime) -> Result<(), Fail> {
    let alloc = rt.alloc();
    let ran = run_on(&rt, alloc, two_file_volume(&rt, alloc, 1)?, &[], &Open)?;
    run_settles(&rt, alloc, ran, &[])?;
    let replies = replies_alone(
        &rt,
        alloc,
        two_file_volume(&rt, alloc, 1)?,
        script(alloc),
        0,
    )?;
    assert!(rt; replies.is_empty());
    Ok(())
}
