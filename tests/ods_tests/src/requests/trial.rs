//! Trials: a volume beside the plain program of the catalogue. After each request the catalogue of the volume's blocks, as the plain
//! reader reads it, is compared with the plain program's, and what is free with what the reader counts.
ghost use Rattle.std.specs.Prelude.{◌≤◌, IsTrue};
ghost use Rattle.ods_state.specs.Outcome.{CanBeAsked, IsVersionNumber};

use super::rows::{Reply, Row};
use crate::persons::{NONE, USER};
use crate::reader::{
    plain_catalogue, plain_counts, plain_free_blocks, plain_free_numbers, plain_id, plain_last,
};
use crate::same::same_blocks;
use crate::volumes::sample_of;
use ods_base::{FileId, Image, Uic};
use ods_mount::mount;
use ods_plain::{Body, Catalogue, File, StepError};
use ods_request::{Answer, Refusal, Request};
use ods_volume::Volume;
use std::alloc::Global;
use std::process::Abort;
use std::test::Fail;

/// A volume, the plain program with the same catalogue, how many requests were made, and the IDs that were given.
#[derive(Drop)]
pub struct Trial {
    pub volume: Volume,
    pub plain: Catalogue,
    pub nth: u32,
    pub given: Vec<FileId>,
}

/// A trial on this image, whose list has room for this many requests.
/// A test hands it on by `&mut`: what owns a trial and may fail at each of many calls takes long to prove.
pub fn start(rt: &impl Abort, alloc: Global, image: Image, limit: u32) -> Result<Trial, Fail> {
    assert!(rt; 1 <= limit && limit <= 65_536);
    let plain = plain_catalogue(alloc, &image)?;
    let Ok(mounted) = mount(alloc, image) else {
        return Err("a sound image, and memory".into());
    };
    let Ok(volume) = Volume::new(alloc, mounted, limit) else {
        return Err("memory for a volume".into());
    };
    Ok(Trial {
        volume,
        plain,
        nth: 0,
        given: Vec::new(alloc),
    })
}

/// Whether two bodies are one.
fn same_body(alloc: Global, shown: &Body, plain: &Body) -> Result<bool, Fail> {
    match (shown, plain) {
        (Body::System, Body::System) => Ok(true),
        (Body::Directory(one), Body::Directory(other)) => {
            Ok(one.lines(alloc)?.as_slice() == other.lines(alloc)?.as_slice())
        }
        (
            Body::Plain { attributes, blocks },
            Body::Plain {
                attributes: others,
                blocks: more,
            },
        ) => Ok(attributes == others && same_blocks(blocks, more)),
        _ => Ok(false),
    }
}

/// Whether two files are one, or neither is there.
fn same_file(alloc: Global, shown: Option<&File>, plain: Option<&File>) -> Result<bool, Fail> {
    let (Some(one), Some(other)) = (shown, plain) else {
        return Ok(shown.is_none() && plain.is_none());
    };
    Ok(
        one.owner == other.owner
            && one.protection == other.protection
            && one.user_char == other.user_char
            && one.system_char == other.system_char
            && one.ident == other.ident
            && same_body(alloc, &one.body, &other.body)?,
    )
}

/// Fails where this is not so of a file.
fn is_so(rt: &impl Abort, id: FileId, holds: bool) {
    assert!(rt; holds, "{id:?} is another file, or not there on one side");
}

/// Both catalogues have the same files with the numbers of the image.
fn same_files(
    rt: &impl Abort,
    alloc: Global,
    image: &Image,
    shown: &Catalogue,
    plain: &Catalogue,
) -> Result<(), Fail> {
    for number in 1..plain_last(image).wrapping_add(1) {
        let id = plain_id(image, number);
        is_so(rt, id, same_file(alloc, shown.file(id), plain.file(id))?);
    }
    Ok(())
}

/// Each of these files is in both catalogues, or in none.
fn same_presence(rt: &impl Abort, given: &[FileId], shown: &Catalogue, plain: &Catalogue) {
    for id in given {
        let is_there = shown.file(*id).is_some();
        is_so(rt, *id, is_there == plain.file(*id).is_some());
    }
}

/// The blocks of the volume show the files that the plain program has, and no others.
fn same_as_plain(rt: &impl Abort, alloc: Global, trial: &Trial) -> Result<(), Fail> {
    let image = trial.volume.image();
    let shown = plain_catalogue(alloc, image)?;
    same_presence(rt, trial.given.as_slice(), &shown, &trial.plain);
    same_files(rt, alloc, image, &shown, &trial.plain)
}

/// The volume counts by each block of its bitmap what is free by the bits.
pub fn counts_bits(rt: &impl Abort, alloc: Global, trial: &Trial) -> Result<(), Fail> {
    let counts = plain_counts(alloc, trial.volume.image())?;
    has_counts(rt, trial, counts.as_slice());
    Ok(())
}

/// The volume has these counts.
pub fn has_counts(rt: &impl Abort, trial: &Trial, wanted: &[u32]) {
    assert!(rt; trial.volume.counts() == wanted, "not {wanted:?}");
}

/// The blocks of the volume show what the plain program has, and as much is free as the reader counts.
pub fn same_catalogue(rt: &impl Abort, alloc: Global, trial: &Trial) -> Result<(), Fail> {
    let image = trial.volume.image();
    same_as_plain(rt, alloc, trial)?;
    counts_bits(rt, alloc, trial)?;
    has_free(
        rt,
        trial,
        plain_free_blocks(alloc, image)?,
        plain_free_numbers(image),
    );
    Ok(())
}

/// Whether a version is 1 to 32,767.
fn is_version(version: u16) -> bool
    ensures { IsTrue result → IsVersionNumber version }
{
    1 <= version && version <= 32_767
}

/// Whether the versions that a request gives are versions.
pub fn can_be_asked(request: &Request) -> bool
    ensures { IsTrue result → CanBeAsked request.now }
{
    match request {
        Request::Create { version, .. } => is_version(*version),
        Request::Enter {
            version: Some(version),
            ..
        } => is_version(*version),
        _ => true,
    }
}

/// What the plain program answers. It gives a new file the ID that the volume gave it.
fn plain_answer(
    plain: &mut Catalogue,
    who: Uic,
    request: &Request,
    answer: &Reply,
) -> Result<Answer, StepError> {
    let new = match answer {
        Ok(Answer::Created(id)) => *id,
        _ => NONE,
    };
    plain.step(who, request, new)
}

/// The plain program answers as the volume has to. What a volume lacks it does not know: then it only has no fault.
fn agree(plain: &Result<Answer, StepError>, wanted: &Reply) -> bool {
    match (plain, wanted) {
        (Ok(one), Ok(other)) => one == other,
        (Err(StepError::Refused(one)), Err(other)) => one == other,
        _ => false,
    }
}

/// Whether the refusal is for what the volume lacks.
pub fn is_lack(refusal: Refusal) -> bool {
    refusal == Refusal::VolumeFull
        || refusal == Refusal::HeadersFull
        || refusal == Refusal::ChainFull
}

/// The request was answered as wanted.
pub fn is_answered(rt: &impl Abort, request: &Request, answer: &Reply, wanted: &Reply) {
    assert!(rt; answer == wanted, "{request:?} was answered {answer:?}");
}

/// The plain program has no fault for a request for which the volume lacks something.
fn has_no_fault(rt: &impl Abort, plain: &Catalogue, who: Uic, request: &Request) {
    assert!(rt;
        plain.fault(&who, request).is_none(),
        "{request:?} has a fault"
    );
}

/// The plain program answers as wanted.
fn plain_agrees(
    rt: &impl Abort,
    plain: &mut Catalogue,
    who: Uic,
    request: &Request,
    wanted: &Reply,
) {
    let answer = plain_answer(plain, who, request, wanted);
    assert!(rt;
        agree(&answer, wanted),
        "{request:?} is answered {answer:?} by the plain program"
    );
}

/// Makes a request of session 1, and compares the answer, the entries and the plain program's answer.
pub fn ask_quickly(
    rt: &impl Abort,
    trial: &mut Trial,
    who: Uic,
    request: &Request,
    wanted: &Reply,
) -> Result<(), Fail> {
    assert!(rt; can_be_asked(request));
    trial.nth = trial.nth.wrapping_add(1);
    let before = trial.volume.entries().len();
    let answer = trial.volume.request(1, trial.nth, who, *request);
    is_answered(rt, request, &answer, wanted);
    has_entries(rt, trial, before.wrapping_add(usize::from(answer.is_ok())));
    match wanted {
        Err(Refusal::ListFull) => {}
        Err(refusal) if is_lack(*refusal) => has_no_fault(rt, &trial.plain, who, request),
        _ => plain_agrees(rt, &mut trial.plain, who, request, wanted),
    }
    if let Ok(Answer::Created(id)) = wanted {
        trial.given.push(*id)?;
    }
    Ok(())
}

/// Makes a request of this user, and compares what the blocks show too.
pub fn ask(
    rt: &impl Abort,
    alloc: Global,
    trial: &mut Trial,
    who: Uic,
    request: &Request,
    wanted: &Reply,
) -> Result<(), Fail> {
    ask_quickly(rt, trial, who, request, wanted)?;
    same_catalogue(rt, alloc, trial)
}

/// Makes the requests of rows in order, each of a user of the system and with its answer.
pub fn plays(rt: &impl Abort, alloc: Global, it: &mut Trial, rows: &[Row]) -> Result<(), Fail> {
    for (request, wanted) in rows {
        ask(rt, alloc, it, USER, request, wanted)?;
    }
    Ok(())
}

/// A trial on a sample of so many blocks.
pub fn on_sample(rt: &impl Abort, alloc: Global, blocks: u32) -> Result<Trial, Fail> {
    start(rt, alloc, sample_of(blocks).image(alloc)?, 4_096)
}

/// A trial on this image, on which the requests of these rows were made.
pub fn played_on(
    rt: &impl Abort,
    alloc: Global,
    image: Image,
    rows: &[Row],
) -> Result<Trial, Fail> {
    let mut trial = start(rt, alloc, image, 4_096)?;
    plays(rt, alloc, &mut trial, rows)?;
    Ok(trial)
}

/// A trial on a sample of so many blocks, on which they were made.
pub fn played(rt: &impl Abort, alloc: Global, blocks: u32, rows: &[Row]) -> Result<Trial, Fail> {
    played_on(rt, alloc, sample_of(blocks).image(alloc)?, rows)
}

/// How many entries the list has, and how many blocks and numbers are free.
pub type Totals = (usize, u32, u32);

/// The requests of these rows on a sample of so many blocks end with these totals.
pub fn ends_with(
    rt: &impl Abort,
    alloc: Global,
    blocks: u32,
    rows: &[Row],
    totals: Totals,
) -> Result<(), Fail> {
    has_totals(rt, &played(rt, alloc, blocks, rows)?, totals);
    Ok(())
}

/// The list has so many entries.
pub fn has_entries(rt: &impl Abort, trial: &Trial, wanted: usize) {
    assert!(rt; trial.volume.entries().len() == wanted, "{wanted} entries");
}

/// So many blocks and numbers are free.
fn has_free(rt: &impl Abort, trial: &Trial, blocks: u32, numbers: u32) {
    assert!(rt; trial.volume.free_count() == blocks, "{blocks} blocks");
    assert!(rt; trial.volume.number_count() == numbers, "{numbers} numbers");
}

/// The trial has these totals.
pub fn has_totals(rt: &impl Abort, trial: &Trial, totals: Totals) {
    let (entries, blocks, numbers) = totals;
    has_entries(rt, trial, entries);
    has_free(rt, trial, blocks, numbers);
}
