//! Refused memory at a desk: it is opened, or hands the volume back as it was; a request is answered as ever, or NoMemory with the image, the
//! list, the mounted image and what a viewer shows as before, and NoMemory only behind the faults and where a growth was refused; a list is
//! settled, or NoMemory; a script is read, or an error. tests/refusals runs these tests with each growth refused in turn; a run meets one
//! refusal, so what was refused is done again.
ghost use Rattle.std.specs.Prelude.{◌≡◌};
ghost use Rattle.ods_state.specs.Outcome.{CanBeAsked};

use super::requests::{block_read, block_viewed, block_written, file_made};
use super::runs::{stamp, volume_of};
use crate::persons::{FIRST, MASTER, USER, letter_a, reserved_lines};
use crate::reader::image_of;
use crate::same::same_image;
use crate::settings::{Refusing, ends};
use crate::volumes::sample_of;
use ods_base::Image;
use ods_request::{Answer, CompactAnswer, CompactRequest, Entry, Refusal, Request};
use ods_script::parse_script;
use ods_share::{Action, Call, Desk, Naming, SettleFault, ViewFault, Viewer, settle};
use ods_volume::{Entries, Volume};
use std::alloc::Global;
use std::marker::Brand;
use std::process::Abort;
use std::sync::Wait;
use std::test::Fail;

/// A List of the master directory.
fn lists() -> Request
    ensures { CanBeAsked result }
{
    Request::List { dir: MASTER }
}

/// What a viewer shows of the first block of that file.
fn shown<J: Naming>(viewer: &mut Viewer<J>) -> Result<Answer, ViewFault> {
    viewer.ask(USER, block_viewed())
}

/// What a volume is before a call whose memory may be refused.
#[derive(Drop)]
struct Noted {
    image: Image,
    mounted: Image,
    entries: Vec<Entry>,
}

/// The volume as it is.
fn as_it_is(alloc: Global, volume: &Volume) -> Result<Noted, Fail> {
    let mut entries = Vec::new(alloc);
    let list = volume.entries();
    for at in 0..list.len() {
        entries.push(list.copy(at)?)?;
    }
    Ok(Noted {
        image: volume.image().copy()?,
        mounted: image_of(alloc, volume.mounted())?,
        entries,
    })
}

/// Whether the list has just these entries.
fn holds(list: &Entries, entries: &[Entry]) -> bool {
    if list.len() != entries.len() {
        return false;
    }
    for (at, entry) in entries.iter().enumerate() {
        let same = list.session(at) == entry.session
            && list.nth(at) == entry.nth
            && list.who(at) == entry.who
            && list.request(at).is_same(&entry.request)
            && list.is_answered(at, &entry.answer);
        if !same {
            return false;
        }
    }
    true
}

/// The volume is as it was.
fn is_as_noted(rt: &impl Abort, volume: &Volume, noted: &Noted) {
    assert!(rt;
        same_image(volume.image(), &noted.image),
        "the image changed"
    );
    assert!(rt;
        volume.mounted().is(&noted.mounted),
        "the mounted image changed"
    );
    assert!(rt; holds(volume.entries(), &noted.entries), "the list changed");
}

/// Makes a request whose memory may be refused, and makes it again then.
fn submitted<J: Naming, R: Abort + Wait>(
    rt: &R,
    alloc: Global,
    desk: &mut Desk<J>,
    viewer: &mut Viewer<J>,
    refusing: &mut Refusing,
    request: &Request,
    wanted: &Result<Answer, Refusal>,
) -> Result<(), Fail>
    requires { CanBeAsked request.now }
{
    let noted = as_it_is(alloc, desk.volume())?;
    let seen = shown(viewer);
    let (answer, told) = desk.submit(rt, 1, 1, USER, *request);
    assert!(rt; told.entries() as usize == desk.volume().entries().len());
    if answer != Err(Refusal::NoMemory) {
        assert!(rt; answer == *wanted, "{request:?} was answered {answer:?}");
        return Ok(());
    }
    refusing.meets(rt);
    assert!(rt; wanted.is_ok(), "a refusal came behind want of memory");
    is_as_noted(rt, desk.volume(), &noted);
    assert!(rt; shown(viewer) == seen, "what was refused is shown");
    let (answer, _) = desk.submit(rt, 1, 1, USER, *request);
    assert!(rt; answer == *wanted, "{request:?} was answered {answer:?}");
    Ok(())
}

/// The requests at a desk of four entries, and what its viewer shows at last.
fn served<J: Naming, R: Abort + Wait>(
    rt: &R,
    alloc: Global,
    desk: &mut Desk<J>,
    viewer: &mut Viewer<J>,
    refusing: &mut Refusing,
) -> Result<(), Fail> {
    let rows = [
        (file_made(stamp()?), Ok(Answer::Created(FIRST))),
        (block_written(2), Err(Refusal::NoSuchBlock)),
        (block_written(1), Ok(Answer::Done)),
        (lists(), Ok(Answer::Names(reserved_lines(alloc)?))),
        (block_read(), Ok(Answer::Bytes(letter_a()))),
        (block_read(), Err(Refusal::ListFull)),
    ];
    for (request, wanted) in &rows {
        submitted(rt, alloc, desk, viewer, refusing, request, wanted)?;
    }
    let seen = shown(viewer);
    assert!(rt; seen == Ok(Answer::Bytes(letter_a())), "{seen:?}");
    Ok(())
}

/// Opens a desk, again where memory was refused, and makes requests at it.
fn opened<J: Naming, R: Abort + Wait>(
    rt: &R,
    alloc: Global,
    volume: Volume,
    refusing: &mut Refusing,
) -> Result<Volume, Fail>
    requires mounted { volume.mounted ≡ J.mounted }
    requires opening { volume.entries ≡ J.opening }
    requires limit { volume.limit ≡ J.limit }
{
    let noted = as_it_is(alloc, &volume)?;
    let (mut desk, mut viewers) = match Desk::<J>::new(rt, alloc, volume, 2) {
        Ok(both) => both,
        Err((volume, _)) => {
            refusing.meets(rt);
            is_as_noted(rt, &volume, &noted);
            match Desk::<J>::new(rt, alloc, volume, 2) {
                Ok(both) => both,
                Err(_) => return Err("refused twice".into()),
            }
        }
    };
    let done = match viewers.pop() {
        Some(mut viewer) => served(rt, alloc, &mut desk, &mut viewer, refusing),
        None => Err("a viewer".into()),
    };
    let volume = desk.close(rt);
    done?;
    Ok(volume)
}

#[test]
fn refused_memory_at_a_desk(rt: HostRuntime) -> Result<(), Fail> {
    let alloc = rt.alloc();
    let mut refusing = Refusing::of(&rt);
    let volume = volume_of(&rt, alloc, sample_of(40).image(alloc)?, 4)?;
    let volume = opened::<Brand, _>(&rt, alloc, volume, &mut refusing)?;
    assert!(rt; volume.entries().len() == 4);
    ends(&rt, alloc);
    Ok(())
}

/// The calls of session 1 that stand for the entries of a volume.
fn calls_in(alloc: Global, volume: &Volume) -> Result<Vec<Vec<Call>>, Fail> {
    let mut calls = Vec::new(alloc);
    let list = volume.entries();
    for at in 0..list.len() {
        let entry = list.copy(at)?;
        calls.push(Call {
            nth: entry.nth,
            who: entry.who,
            request: CompactRequest::of(alloc, &entry.request.get())?,
            answer: CompactAnswer::of(alloc, entry.answer.copy()?)?,
        })?;
    }
    let mut lists = Vec::new(alloc);
    lists.push(calls)?;
    Ok(lists)
}

/// A list that is settled wants memory for its report alone, and one that is not wants none.
#[test]
fn refused_memory_in_a_settlement(rt: HostRuntime) -> Result<(), Fail> {
    let alloc = rt.alloc();
    let mut refusing = Refusing::of(&rt);
    let image = sample_of(40).image(alloc)?;
    let mut volume = volume_of(&rt, alloc, image.copy()?, 4)?;
    for request in [file_made(stamp()?), block_written(1)] {
        if volume.request(1, 1, USER, request).is_err() {
            return Err("memory for a request".into());
        }
    }
    let calls = calls_in(alloc, &volume)?;
    let wrong = settle(alloc, volume.image(), &volume, calls.as_slice());
    assert!(rt; matches!(wrong, Err(SettleFault::Unmatched)));
    let mut settled = settle(alloc, &image, &volume, calls.as_slice());
    if matches!(settled, Err(SettleFault::NoMemory)) {
        refusing.meets(&rt);
        settled = settle(alloc, &image, &volume, calls.as_slice());
    }
    match settled {
        Ok(report) => {
            assert!(rt; report.entries == 2 && report.of_session.as_slice() == [2].as_slice());
        }
        Err(fault) => assert!(rt; false, "{fault:?}"),
    }
    ends(&rt, alloc);
    Ok(())
}

/// Every command of the language, and lines that are none.
const ALL: &[u8] =
    b"USER [1,2]\nCREATE A.TXT;1 2\nWRITE $ 1 48690d0a\nEXTEND $ 3\nTRUNCATE $ 2\nENTER 6,1 A.TXT $\n\nLOOK 6,1 A.TXT;-1\nREAD $ 1\n\
LIST 6,1\nSTAT $\nSETUSER $ 0200\nVIEW LOOK 6,1 A.TXT\nVIEW READ $ 1\nVIEW STAT $\nNONE\nREMOVE 6,1 A.TXT\nDELETE 7,1";

#[test]
fn refused_memory_in_a_script(rt: HostRuntime) -> Result<(), Fail> {
    let mut refusing = Refusing::of(&rt);
    let script = match parse_script(rt.alloc(), ALL) {
        Ok(script) => script,
        Err(_) => {
            refusing.meets(&rt);
            match parse_script(rt.alloc(), ALL) {
                Ok(script) => script,
                Err(_) => return Err("refused twice".into()),
            }
        }
    };
    assert!(rt; script.commands.len() == 17);
    for (k, command) in script.commands.iter().enumerate() {
        let is_none = matches!(command.action, Action::Bad);
        assert!(rt;
            command.nth as usize == k + 1 + usize::from(k > 5),
            "command {k}"
        );
        assert!(rt; is_none == (k == 14), "command {k}");
    }
    ends(&rt, rt.alloc());
    Ok(())
}
