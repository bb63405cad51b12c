//! Views: what sessions are shown beside the lock, and viewers in hand.
ghost use Rattle.std.specs.Prelude.{◌≡◌, All, IfOk};
ghost use Rattle.ods_share.specs.Scripts.{CanBeObeyed, CanBeRun};

use super::requests::{block_viewed, block_written, file_made};
use super::runs::{replies_alone, run_on, stamp, two_file_volume, volume_of};
use super::scripts::{add, both, create, read_last, script, write, write_last};
use super::served::{Short, has_answer, replied};
use crate::persons::{FIRST, MASTER, NONE, USER, a_txt, corimg, letter_a, old_block, reserved_id};
use crate::volumes::sample_of;
use ods_base::Pick;
use ods_request::{Answer, Refusal, Stamp};
use ods_share::{Action, Desk, Gate, Id, Look, Naming, Reply, Script, ViewFault, Viewer};
use ods_volume::Volume;
use std::alloc::Global;
use std::marker::Brand;
use std::process::Abort;
use std::sync::Wait;
use std::sync::atomic::{AtomicBool, Ordering};
use std::test::Fail;
use std::thread;
use std::thread::Threads;

/// A view of the first block of the file that `$` stands for.
fn view_last() -> Action
    ensures { CanBeObeyed result }
{
    Action::View(Look::Read {
        file: Id::Last,
        vbn: 1,
    })
}

/// This reply has this answer.
fn shown(rt: &impl Abort, replies: &[Reply], reply: usize, wanted: &Answer) {
    let is_shown = has_answer(replies.get(reply), wanted);
    assert!(rt; is_shown, "reply {reply} is not {wanted:?}");
}

/// A file is made, its block is written, and viewed; where it is to be read, that comes before the view.
fn made_and_viewed(alloc: Global, is_read: bool) -> Result<Script, Fail>
    ensures { IfOk result (λ s. CanBeRun s.commands.items) }
{
    let mut script = script(alloc);
    add(&mut script, create(a_txt(), 1, 1))?;
    add(&mut script, write_last(alloc, 1, letter_a())?)?;
    if is_read {
        add(&mut script, read_last(1))?;
    }
    add(&mut script, view_last())?;
    Ok(script)
}

#[test]
fn view_shows_what_its_session_wrote(rt: HostRuntime) -> Result<(), Fail> {
    let alloc = rt.alloc();
    let volume = volume_of(&rt, alloc, sample_of(40).image(alloc)?, 4_096)?;
    let replies = replies_alone(&rt, alloc, volume, made_and_viewed(alloc, false)?, 2)?;
    replied(&rt, &replies, &[Short::Got, Short::Got, Short::Got]);
    shown(&rt, &replies, 0, &Answer::Created(FIRST));
    shown(&rt, &replies, 2, &Answer::Bytes(letter_a()));
    Ok(())
}

#[test]
fn view_is_answered_when_the_list_is_full(rt: HostRuntime) -> Result<(), Fail> {
    let alloc = rt.alloc();
    let volume = volume_of(&rt, alloc, sample_of(40).image(alloc)?, 2)?;
    let replies = replies_alone(&rt, alloc, volume, made_and_viewed(alloc, true)?, 2)?;
    let full = Short::No(Refusal::ListFull);
    replied(&rt, &replies, &[Short::Got, Short::Got, full, Short::Got]);
    shown(&rt, &replies, 3, &Answer::Bytes(letter_a()));
    Ok(())
}

/// A view where `$` stands for nothing, one that finds a file, one of that file, and one of no file.
fn four_views(alloc: Global) -> Result<Script, Fail>
    ensures { IfOk result (λ s. CanBeRun s.commands.items) }
{
    let look = Look::LookUp {
        dir: Id::Given(MASTER),
        name: corimg(),
        pick: Pick::Highest,
    };
    let nothing = Look::Stat {
        file: Id::Given(NONE),
    };
    let mut script = script(alloc);
    add(&mut script, view_last())?;
    add(&mut script, Action::View(look))?;
    add(&mut script, view_last())?;
    add(&mut script, Action::View(nothing))?;
    Ok(script)
}

#[test]
fn dollar_follows_a_look_that_is_viewed(rt: HostRuntime) -> Result<(), Fail> {
    let alloc = rt.alloc();
    let volume = two_file_volume(&rt, alloc, 4_096)?;
    let replies = replies_alone(&rt, alloc, volume, four_views(alloc)?, 0)?;
    let block = Short::No(Refusal::NoSuchBlock);
    let file = Short::No(Refusal::NoSuchFile);
    replied(&rt, &replies, &[Short::Bad, Short::Got, block, file]);
    shown(&rt, &replies, 1, &Answer::Found(reserved_id(5), 1));
    Ok(())
}

/// What a viewer that moves to a second thread shows there of the first block of the first file.
fn asked<J: Naming + Send + Sync, R: Threads + Wait + Sync>(
    rt: &R,
    viewer: Viewer<J>,
) -> Result<Answer, ViewFault> {
    let mut viewer = viewer;
    let (seen, _) = thread::join(rt, move || viewer.ask(USER, block_viewed()), || ());
    seen
}

/// Makes two requests at a desk in hand, lets a viewer learn of both, and asks it in a second thread.
fn in_hand<J: Naming + Send + Sync, R: Abort + Threads + Wait + Sync>(
    rt: &R,
    alloc: Global,
    volume: Volume,
    stamp: Stamp,
) -> Result<Volume, Fail>
    requires mounted { volume.mounted ≡ J.mounted }
    requires opening { volume.entries ≡ J.opening }
    requires limit { volume.limit ≡ J.limit }
{
    match Desk::<J>::new(rt, alloc, volume, 2) {
        Ok((mut desk, mut viewers)) => {
            let (made, first) = desk.submit(rt, 1, 1, USER, file_made(stamp));
            let (written, second) = desk.submit(rt, 1, 2, USER, block_written(1));
            let told = second.entries();
            let seen = match viewers.pop() {
                Some(mut viewer) => {
                    viewer.learn(first);
                    viewer.learn(second);
                    asked(rt, viewer)
                }
                None => Err(ViewFault::Closed),
            };
            let volume = desk.close(rt);
            let late = match viewers.pop() {
                Some(viewer) => asked(rt, viewer),
                None => Ok(Answer::Done),
            };
            assert!(rt; made == Ok(Answer::Created(FIRST)) && written == Ok(Answer::Done));
            assert!(rt; told == 2);
            assert!(rt; seen == Ok(Answer::Bytes(letter_a())));
            assert!(rt; late == Err(ViewFault::Closed));
            Ok(volume)
        }
        Err(_) => Err("memory for a desk".into()),
    }
}

#[test]
fn viewer_shows_what_it_learned(rt: HostRuntime) -> Result<(), Fail> {
    let alloc = rt.alloc();
    let volume = volume_of(&rt, alloc, sample_of(40).image(alloc)?, 4_096)?;
    let volume = in_hand::<Brand, _>(&rt, alloc, volume, stamp()?)?;
    assert!(rt; volume.entries().len() == 2);
    Ok(())
}

/// Keeps the view of session 2 until session 1 has the lock, and its request under the lock until the view is answered; gives up at last.
#[derive(Drop)]
struct Held {
    is_held: AtomicBool,
    answered: AtomicBool,
    gave_up: AtomicBool,
}

impl Held {
    /// Waits until this is so.
    fn wait_for(&self, flag: &AtomicBool) {
        for _ in 0..50_000_000u32 {
            if flag.load(Ordering::SeqCst) {
                return;
            }
        }
        self.gave_up.store(true, Ordering::SeqCst);
    }
}

impl Gate for Held {
    fn before(&self, session: u16, _nth: u32) {
        if session == 2 {
            self.wait_for(&self.is_held);
        }
    }

    fn held(&self, session: u16, _nth: u32) {
        if session == 1 {
            self.is_held.store(true, Ordering::SeqCst);
            self.wait_for(&self.answered);
        }
    }

    fn after(&self, session: u16, _nth: u32) {
        if session == 2 {
            self.answered.store(true, Ordering::SeqCst);
        }
    }
}

/// Session 1 writes the first block of the first file, and session 2 views it.
fn written_and_viewed(alloc: Global) -> Result<Vec<Script>, Fail>
    ensures { IfOk result (λ v. All (λ s. CanBeRun s.commands.items) v.items) }
{
    let mut first = script(alloc);
    add(&mut first, write(alloc, FIRST, 1, letter_a())?)?;
    let look = Look::Read {
        file: Id::Given(FIRST),
        vbn: 1,
    };
    let mut second = script(alloc);
    add(&mut second, Action::View(look))?;
    both(alloc, first, second)
}

#[test]
fn view_needs_no_lock(rt: HostRuntime) -> Result<(), Fail> {
    let alloc = rt.alloc();
    let gate = Held {
        is_held: AtomicBool::new(false),
        answered: AtomicBool::new(false),
        gave_up: AtomicBool::new(false),
    };
    let scripts = written_and_viewed(alloc)?;
    let volume = two_file_volume(&rt, alloc, 4_096)?;
    let ran = run_on(&rt, alloc, volume, &scripts, &gate)?;
    let gave_up = gate.gave_up.load(Ordering::SeqCst);
    assert!(rt; !gave_up, "the view waited for the lock");
    assert!(rt; ran.volume.entries().len() == 1);
    match ran.outcomes.as_slice() {
        [first, second] => {
            replied(&rt, &first.replies, &[Short::Got]);
            shown(&rt, &second.replies, 0, &Answer::Bytes(old_block()));
        }
        _ => assert!(rt; false, "two outcomes"),
    }
    Ok(())
}
