//! Answers and requests in little room.
use super::requests::{block_read, block_written, file_made};
use super::runs::stamp;
use crate::persons::{
    FIRST, MASTER, SECOND, a_txt, b_txt, index_stat, letter_a, other_attributes, reserved_lines,
};
use ods_base::Pick;
use ods_request::{Answer, CompactAnswer, CompactRequest, Request, RequestForm};
use std::alloc::Global;
use std::sync::Arc;
use std::test::Fail;

/// How many of the answers take no memory where they are kept in little room.
const SHORT: usize = 11;

/// Answers that differ, those first that take no memory.
fn answers(alloc: Global) -> Result<Vec<Answer>, Fail> {
    let mut answers = Vec::new(alloc);
    answers.push(Answer::Created(FIRST))?;
    answers.push(Answer::Created(SECOND))?;
    answers.push(Answer::Extended(3))?;
    answers.push(Answer::Truncated(3))?;
    answers.push(Answer::Truncated(0))?;
    answers.push(Answer::Done)?;
    answers.push(Answer::Entered(3))?;
    answers.push(Answer::Found(FIRST, 1))?;
    answers.push(Answer::Found(FIRST, 2))?;
    answers.push(Answer::Removed(FIRST, 1))?;
    answers.push(Answer::Names(reserved_lines(alloc)?))?;
    answers.push(Answer::Bytes(letter_a()))?;
    answers.push(Answer::Info(index_stat()))?;
    Ok(answers)
}

#[test]
fn compact_answers_are_their_answers(rt: HostRuntime) -> Result<(), Fail> {
    let alloc = rt.alloc();
    let answers = answers(alloc)?;
    for (k, answer) in answers.iter().enumerate() {
        let Ok(compact) = CompactAnswer::of(alloc, answer.copy()?) else {
            assert!(rt; SHORT <= k, "{answer:?} wanted memory");
            return Err("memory for a long answer".into());
        };
        assert!(rt; compact.copy(alloc)? == compact, "{answer:?}");
        for (j, other) in answers.iter().enumerate() {
            let is_same = compact == CompactAnswer::of(alloc, other.copy()?)?;
            assert!(rt;
                is_same == (j == k) && compact.is(other) == (j == k),
                "{answer:?}, {other:?}"
            );
        }
    }
    Ok(())
}

/// Requests that differ, of each kind, the Writes last.
fn requests(alloc: Global) -> Result<Vec<Request>, Fail> {
    let file = FIRST;
    let dir = MASTER;
    let name = a_txt();
    let pick = Pick::Highest;
    let mut requests = Vec::new(alloc);
    requests.push(file_made(stamp()?))?;
    requests.push(Request::Extend { file, blocks: 1 })?;
    requests.push(Request::Extend { file, blocks: 2 })?;
    requests.push(Request::Truncate { file, blocks: 1 })?;
    requests.push(Request::Truncate { file, blocks: 0 })?;
    requests.push(Request::Truncate {
        file: SECOND,
        blocks: 1,
    })?;
    requests.push(Request::Delete { file })?;
    requests.push(Request::Enter {
        dir,
        name,
        version: Some(1),
        file,
    })?;
    requests.push(Request::Enter {
        dir,
        name,
        version: None,
        file,
    })?;
    requests.push(Request::LookUp { dir, name, pick })?;
    requests.push(Request::LookUp {
        dir,
        name: b_txt(),
        pick,
    })?;
    requests.push(Request::Remove { dir, name, pick })?;
    requests.push(block_read())?;
    requests.push(Request::List { dir })?;
    requests.push(Request::Stat { file })?;
    requests.push(Request::Stat { file: SECOND })?;
    requests.push(Request::SetUser {
        file,
        attributes: other_attributes(),
    })?;
    requests.push(block_written(1))?;
    requests.push(block_written(2))?;
    Ok(requests)
}

#[test]
fn compact_requests_are_their_requests(rt: HostRuntime) -> Result<(), Fail> {
    let alloc = rt.alloc();
    let requests = requests(alloc)?;
    for (k, request) in requests.iter().enumerate() {
        let compact = CompactRequest::of(alloc, request)?;
        assert!(rt; compact.get() == *request, "{request:?}");
        assert!(rt; compact.share()? == compact, "{request:?}");
        for (j, other) in requests.iter().enumerate() {
            let is_same = compact == CompactRequest::of(alloc, other)?;
            assert!(rt;
                is_same == (j == k) && compact.is(other) == (j == k),
                "{request:?}, {other:?}"
            );
        }
    }
    Ok(())
}

#[test]
fn shared_write_outlives_what_it_is_shared_with(rt: HostRuntime) -> Result<(), Fail> {
    let alloc = rt.alloc();
    let block = Arc::new(alloc, letter_a())?;
    let first = CompactRequest::new(RequestForm::Write {
        file: FIRST,
        vbn: 1,
        block: Arc::try_clone(&block)?,
    });
    let second = first.share()?;
    assert!(rt; Arc::strong_count(&block) == 3);
    drop(first);
    assert!(rt; Arc::strong_count(&block) == 2);
    drop(block);
    let written = Request::Write {
        file: FIRST,
        vbn: 1,
        block: letter_a(),
    };
    assert!(rt; second.is(&written));
    Ok(())
}
