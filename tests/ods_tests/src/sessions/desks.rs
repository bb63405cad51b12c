//! Desks, by callers who hold one themselves.
ghost use Rattle.std.specs.Prelude.{◌≡◌, []};
ghost use Rattle.ods_state.specs.Outcome.{CanBeAsked};

use super::requests::{block_viewed, block_written};
use super::runs::{two_file_volume, two_files, volume_of};
use crate::persons::{FIRST, MASTER, NONE, USER};
use ods_base::FileId;
use ods_request::{Answer, AnswerForm, CompactAnswer, CompactRequest, Refusal, Request};
use ods_share::{Call, Desk, Naming, SettleFault, settle_mounted};
use ods_volume::Volume;
use std::alloc::{AllocError, Global};
use std::marker::Brand;
use std::mem;
use std::process::Abort;
use std::sync::{Mutex, MutexGuard, Wait};
use std::test::Fail;

/// A Read of the first block of a file.
fn first_block(file: FileId) -> Request
    ensures { CanBeAsked result }
{
    Request::Read { file, vbn: 1 }
}

/// Makes a Read at a desk: the session's calls.
fn asks<J: Naming, R: Abort + Wait>(
    rt: &R,
    alloc: Global,
    desk: &Mutex<Desk<J>>,
    session: u16,
) -> Result<Vec<Call>, AllocError> {
    let mut guard = desk.lock(rt);
    let (result, told) = guard.submit(rt, session, 1, USER, first_block(FIRST));
    assert!(rt; told.entries() as usize == guard.volume().entries().len());
    MutexGuard::unlock(guard);
    let mut calls = Vec::new(alloc);
    if let Ok(answer) = result {
        calls.push(Call {
            nth: 1,
            who: USER,
            request: CompactRequest::of(alloc, &first_block(FIRST))?,
            answer: CompactAnswer::of(alloc, answer)?,
        })?;
    }
    Ok(calls)
}

/// Makes two requests of session 1, and tells how long the list was after each.
fn tells<J: Naming, R: Abort + Wait>(rt: &R, alloc: Global, volume: Volume) -> Result<Volume, Fail>
    requires mounted { volume.mounted ≡ J.mounted }
    requires opening { volume.entries ≡ J.opening }
    requires limit { volume.limit ≡ J.limit }
{
    match Desk::<J>::new(rt, alloc, volume, 1) {
        Ok((mut desk, viewers)) => {
            assert!(rt; viewers.len() == 1);
            let (result, told) = desk.submit(rt, 1, 1, USER, first_block(FIRST));
            assert!(rt; matches!(result, Ok(Answer::Bytes(_))));
            assert!(rt; told.entries() == 1);
            let (result, told) = desk.submit(rt, 1, 2, USER, first_block(NONE));
            assert!(rt; matches!(result, Err(Refusal::NoSuchFile)));
            assert!(rt; told.entries() == 1);
            assert!(rt; desk.volume().entries().len() == 1);
            Ok(desk.close(rt))
        }
        Err(_) => Err("memory for a desk".into()),
    }
}

#[test]
fn desk_tells_how_long_its_list_is(rt: HostRuntime) -> Result<(), Fail> {
    let alloc = rt.alloc();
    let volume = two_file_volume(&rt, alloc, 4_096)?;
    let volume = tells::<Brand, _>(&rt, alloc, volume)?;
    assert!(rt; volume.entries().len() == 1);
    Ok(())
}

/// Makes a Write and a Read of session 1, of which the list keeps a share, and a Write that is refused.
fn shares<J: Naming, R: Abort + Wait>(rt: &R, alloc: Global, volume: Volume) -> Result<Volume, Fail>
    requires mounted { volume.mounted ≡ J.mounted }
    requires opening { volume.entries ≡ J.opening }
    requires limit { volume.limit ≡ J.limit }
{
    let written = CompactRequest::of(alloc, &block_written(1))?;
    let read = CompactRequest::of(alloc, &first_block(FIRST))?;
    let refused = CompactRequest::of(alloc, &block_written(70_000))?;
    let Ok((mut desk, _)) = Desk::<J>::new(rt, alloc, volume, 1) else {
        return Err("memory for a desk".into());
    };
    let (result, told) = desk.submit_shared(rt, 1, 1, USER, &written);
    assert!(rt;
        matches!(&result, Ok(answer) if answer.is(&Answer::Done)),
        "{result:?}"
    );
    assert!(rt; told.entries() == 1);
    let (result, told) = desk.submit_shared(rt, 1, 2, USER, &read);
    assert!(rt; matches!(&result, Ok(answer) if matches!(answer.form(), AnswerForm::Bytes(_))));
    assert!(rt; told.entries() == 2);
    let (result, told) = desk.submit_shared(rt, 1, 3, USER, &refused);
    assert!(rt; matches!(&result, Err(Refusal::NoSuchBlock)), "{result:?}");
    assert!(rt; told.entries() == 2);
    let entries = desk.volume().entries();
    assert!(rt; *entries.request(0) == written && *entries.request(1) == read);
    Ok(desk.close(rt))
}

#[test]
fn list_shares_the_requests_of_its_callers(rt: HostRuntime) -> Result<(), Fail> {
    let alloc = rt.alloc();
    let volume = two_file_volume(&rt, alloc, 4_096)?;
    let volume = shares::<Brand, _>(&rt, alloc, volume)?;
    assert!(rt; volume.entries().request(0).is(&block_written(1)));
    Ok(())
}

/// A Write that is prepared as a share is done as it would be by itself, and a full list is refused first.
#[test]
fn volume_shares_a_write_that_it_prepared(rt: HostRuntime) -> Result<(), Fail> {
    let alloc = rt.alloc();
    let mut volume = two_file_volume(&rt, alloc, 1)?;
    let written = CompactRequest::of(alloc, &block_written(1))?;
    let Ok(prepared) = volume.prepare_shared(1, 1, USER, &written) else {
        return Err("a write that is accepted".into());
    };
    assert!(rt; volume.entries().is_empty());
    assert!(rt; volume.apply(prepared) == Answer::Done);
    drop(written);
    assert!(rt; volume.entries().request(0).is(&block_written(1)));
    let refused = CompactRequest::of(alloc, &block_written(70_000))?;
    let planned = volume.prepare_shared(1, 2, USER, &refused);
    assert!(rt; matches!(planned, Err(Refusal::ListFull)));
    Ok(())
}

/// A request that is made at once has its answer in the list and in little room, and a full list is refused first.
#[test]
fn volume_makes_shared_requests_at_once(rt: HostRuntime) -> Result<(), Fail> {
    let alloc = rt.alloc();
    let mut volume = two_file_volume(&rt, alloc, 3)?;
    let written = CompactRequest::of(alloc, &block_written(1))?;
    let read = CompactRequest::of(alloc, &first_block(FIRST))?;
    let listed = CompactRequest::of(alloc, &Request::List { dir: MASTER })?;
    let refused = CompactRequest::of(alloc, &block_written(70_000))?;
    let Ok(done) = volume.request_shared(1, 1, USER, &written) else {
        return Err("a write that is accepted".into());
    };
    assert!(rt; done.is(&Answer::Done) && volume.entries().has_answer(0, &done));
    assert!(rt;
        matches!(
            volume.request_shared(1, 2, USER, &refused),
            Err(Refusal::NoSuchBlock)
        )
    );
    assert!(rt; volume.entries().len() == 1);
    let Ok(block) = volume.request_shared(1, 3, USER, &read) else {
        return Err("a read that is accepted".into());
    };
    assert!(rt; matches!(block.form(), AnswerForm::Bytes(_)));
    assert!(rt; volume.entries().has_answer(1, &block) && !volume.entries().has_answer(1, &done));
    let Ok(lines) = volume.request_shared(1, 4, USER, &listed) else {
        return Err("a list that is accepted".into());
    };
    assert!(rt; matches!(lines.form(), AnswerForm::Names(names) if !names.names().is_empty()));
    assert!(rt; volume.entries().has_answer(2, &lines) && !volume.entries().has_answer(2, &block));
    assert!(rt;
        matches!(
            volume.request_shared(1, 5, USER, &read),
            Err(Refusal::ListFull)
        )
    );
    Ok(())
}

/// Puts another desk under the lock.
fn swap_in<J: Naming, R: Wait>(rt: &R, desk: &Mutex<Desk<J>>, other: Desk<J>) {
    let mut guard = desk.lock(rt);
    let taken = mem::replace(&mut *guard, other);
    MutexGuard::unlock(guard);
    taken.close(rt);
}

/// Sessions 1 and 2 make a request each, and in between another lawful volume of the same image is put under the lock.
fn swapped<J: Naming, R: Abort + Wait>(
    rt: &R,
    alloc: Global,
    volume: Volume,
    other: Volume,
) -> Result<(Volume, Vec<Vec<Call>>), Fail>
    requires mounted { volume.mounted ≡ J.mounted }
    requires opening { volume.entries ≡ J.opening }
    requires limit { volume.limit ≡ J.limit }
    requires other_mounted { other.mounted ≡ J.mounted }
    requires other_opening { other.entries ≡ J.opening }
    requires other_limit { other.limit ≡ J.limit }
{
    let Ok((desk, _)) = Desk::<J>::new(rt, alloc, volume, 2) else {
        return Err("memory for a desk".into());
    };
    let lock = Mutex::new(desk);
    let Ok((other, _)) = Desk::<J>::new(rt, alloc, other, 2) else {
        lock.into_inner().close(rt);
        return Err("memory for a desk".into());
    };
    let first = asks(rt, alloc, &lock, 1);
    swap_in(rt, &lock, other);
    let second = asks(rt, alloc, &lock, 2);
    let volume = lock.into_inner().close(rt);
    let mut calls = Vec::new(alloc);
    calls.push(first?)?;
    calls.push(second?)?;
    Ok((volume, calls))
}

#[test]
fn swapped_volume_is_unmatched(rt: HostRuntime) -> Result<(), Fail> {
    let alloc = rt.alloc();
    let image = two_files(alloc)?;
    let same = image.copy()?;
    let volume = volume_of(&rt, alloc, image, 4_096)?;
    let other = volume_of(&rt, alloc, same, 4_096)?;
    let (volume, calls) = swapped::<Brand, _>(&rt, alloc, volume, other)?;
    assert!(rt; calls.iter().all(|list| list.len() == 1));
    assert!(rt; volume.entries().len() == 1);
    let settled = settle_mounted(alloc, &volume, calls.as_slice());
    assert!(rt; matches!(settled, Err(SettleFault::Unmatched)));
    Ok(())
}

/// Fills a list of 65,536, of which a viewer learns, and asks it: after 65,535 entries and at the last.
fn fills<J: Naming, R: Abort + Wait>(rt: &R, alloc: Global, volume: Volume) -> Result<Volume, Fail>
    requires mounted { volume.mounted ≡ J.mounted }
    requires opening { volume.entries ≡ J.opening }
    requires limit { volume.limit ≡ J.limit }
{
    let Ok((mut desk, mut viewers)) = Desk::<J>::new(rt, alloc, volume, 1) else {
        return Err("memory for a desk".into());
    };
    let viewer = viewers.pop();
    let mut viewer = viewer.expect(rt, "a viewer");
    for nth in 1..65_537 {
        let (result, told) = desk.submit(rt, 1, nth, USER, first_block(FIRST));
        assert!(rt; result.is_ok() && told.entries() == nth, "entry {nth}");
        if 65_534 < nth {
            viewer.learn(told);
            let shown = viewer.ask(USER, block_viewed());
            assert!(rt; matches!(shown, Ok(Answer::Bytes(_))), "{shown:?} at {nth}");
        }
    }
    let (result, _) = desk.submit(rt, 1, 1, USER, first_block(FIRST));
    assert!(rt; result == Err(Refusal::ListFull));
    Ok(desk.close(rt))
}

#[test]
fn viewer_learns_of_the_longest_list(rt: HostRuntime) -> Result<(), Fail> {
    let alloc = rt.alloc();
    let volume = two_file_volume(&rt, alloc, 65_536)?;
    let volume = fills::<Brand, _>(&rt, alloc, volume)?;
    assert!(rt; volume.entries().len() == 65_536);
    Ok(())
}
