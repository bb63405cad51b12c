//! Two sessions that create a file each.
ghost use Rattle.std.specs.Prelude.{All, IfOk};
ghost use Rattle.ods_share.specs.Scripts.{CanBeRun};

use super::runs::{Open, has_totals, run_on, run_settles, volume_of};
use super::scripts::{add, both, create, read_last, script, write_last};
use super::served::has_answer;
use crate::persons::{FIRST, SECOND, a_txt, b_txt, letter_a};
use crate::volumes::sample_of;
use ods_base::{Block, FileId};
use ods_request::Answer;
use ods_share::{Reply, Script};
use std::alloc::Global;
use std::process::Abort;
use std::test::Fail;

/// The first of these replies says that this file was made.
fn has_made(replies: &[Reply], file: FileId) -> bool {
    has_answer(replies.first(), &Answer::Created(file))
}

/// Two scripts that create a file each; the first one writes its block, and both read it.
fn two_that_create(alloc: Global) -> Result<Vec<Script>, Fail>
    ensures { IfOk result (λ v. All (λ s. CanBeRun s.commands.items) v.items) }
{
    let mut first = script(alloc);
    add(&mut first, create(a_txt(), 1, 1))?;
    add(&mut first, write_last(alloc, 1, letter_a())?)?;
    add(&mut first, read_last(1))?;
    let mut second = script(alloc);
    add(&mut second, create(b_txt(), 1, 1))?;
    add(&mut second, read_last(1))?;
    both(alloc, first, second)
}

/// Each session made a file of its own.
fn made_two(rt: &impl Abort, one: &[Reply], other: &[Reply]) {
    let is_in_order = has_made(one, FIRST) && has_made(other, SECOND);
    let is_turned = has_made(one, SECOND) && has_made(other, FIRST);
    assert!(rt;
        is_in_order || is_turned,
        "{:?}, {:?}",
        one.first(),
        other.first()
    );
}

/// The first session wrote its block and read it, the second read zeros.
fn read_both(rt: &impl Abort, one: &[Reply], other: &[Reply]) {
    assert!(rt; one.len() == 3 && other.len() == 2);
    assert!(rt; matches!(&one[1], Reply::Got(_)));
    assert!(rt; has_answer(one.get(2), &Answer::Bytes(letter_a())));
    assert!(rt; has_answer(other.get(1), &Answer::Bytes(Block::zeros())));
}

#[test]
fn two_sessions_create(rt: HostRuntime) -> Result<(), Fail> {
    let alloc = rt.alloc();
    let volume = volume_of(&rt, alloc, sample_of(40).image(alloc)?, 4_096)?;
    let scripts = two_that_create(alloc)?;
    let ran = run_on(&rt, alloc, volume, scripts.as_slice(), &Open)?;
    match ran.outcomes.as_slice() {
        [one, other] => {
            made_two(&rt, &one.replies, &other.replies);
            read_both(&rt, &one.replies, &other.replies);
        }
        _ => assert!(rt; false, "two outcomes"),
    }
    has_totals(&rt, &ran.volume, 5, 16, 9);
    run_settles(&rt, alloc, ran, &[3, 2])
}
