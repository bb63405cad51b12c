//! Refused memory: a mount and each request are answered as ever, or NoMemory with all as it was before, and NoMemory only behind the
//! faults and where a growth was refused. tests/refusals runs these tests with each growth refused in turn; a run meets one refusal, so
//! what was refused is done again.
ghost use Rattle.ods_state.specs.Outcome.{CanBeAsked};

use super::rows::{
    Reply, Row, bytes, create, dat, delete, enter, extend, id, list, look_for_bitmap, made,
    made_stat, plain, read, remove, set_user, shown, stat, sub_dir, truncate, write_a,
};
use super::trial::{can_be_asked, is_answered, is_lack};
use crate::contiguous::{contiguous_file, contiguous_stat};
use crate::persons::{
    FIRST, MASTER, PROTECTION, SECOND, USER, a_txt, old_block, reserved_id, reserved_lines,
};
use crate::same::same_image;
use crate::settings::{Refusing, ends};
use crate::volumes::{Variant, added, run, sample_of};
use ods_alloc::free_count;
use ods_base::{Block, FileId, Image, Pick};
use ods_header::Run;
use ods_mount::{MountFault, mount};
use ods_request::{Answer, Refusal, Request};
use ods_volume::Volume;
use std::alloc::Global;
use std::process::Abort;
use std::rt::Env;
use std::test::Fail;

#[test]
fn refused_memory_hands_the_image_back(rt: HostRuntime) -> Result<(), Fail> {
    let mut refusing = Refusing::of(&rt);
    let image = sample_of(512).image(rt.alloc())?;
    let same = image.copy()?;
    match mount(rt.alloc(), image) {
        Ok(mounted) => {
            let disk = mounted.disk();
            assert!(rt; same_image(disk.image, &same) && free_count(&disk) == 490);
        }
        Err((back, fault)) => {
            assert!(rt; fault == MountFault::NoMemory, "another fault");
            assert!(rt; same_image(&back, &same), "another image");
            refusing.meets(&rt);
        }
    }
    ends(&rt, rt.alloc());
    Ok(())
}

/// A volume of this image, again where memory was refused: the mounted image is handed back.
pub fn poor_volume(
    rt: &impl Abort,
    alloc: Global,
    refusing: &mut Refusing,
    image: Image,
) -> Result<Volume, Fail> {
    let same = image.copy()?;
    let Ok(mounted) = mount(alloc, image) else {
        return Err("memory for a mount".into());
    };
    match Volume::new(alloc, mounted, 4_096) {
        Ok(volume) => Ok(volume),
        Err((mounted, _)) => {
            refusing.meets(rt);
            assert!(rt; same_image(mounted.image(), &same), "another image");
            match Volume::new(alloc, mounted, 4_096) {
                Ok(volume) => Ok(volume),
                Err(_) => Err("refused twice".into()),
            }
        }
    }
}

/// The volume has this image, so many entries, and that mounted image.
fn is_as_before(rt: &impl Abort, volume: &Volume, image: &Image, mounted: &Image, entries: usize) {
    assert!(rt; same_image(volume.image(), image), "the image changed");
    assert!(rt; volume.mounted().is(mounted), "the mounted image changed");
    assert!(rt; volume.entries().len() == entries, "the list changed");
}

/// The request may be answered that memory is wanting: it is none of those that take none, and no fault that is looked for before memory.
fn may_want(request: &Request, wanted: &Reply) -> bool {
    match wanted {
        Ok(_) => request.as_query().is_none(),
        Err(refusal) => is_lack(*refusal),
    }
}

/// Makes a request whose memory may be refused: it is answered as wanted; or refused for want of memory with the volume as it was, and
/// answered as wanted when it is made once more.
fn ask_poor(
    rt: &impl Abort,
    refusing: &mut Refusing,
    volume: &mut Volume,
    mounted: &Image,
    request: &Request,
    wanted: &Reply,
) -> Result<(), Fail> {
    assert!(rt; can_be_asked(request));
    let image = volume.image().copy()?;
    let entries = volume.entries().len();
    let mut answer = volume.request(1, 1, USER, *request);
    if answer == Err(Refusal::NoMemory) {
        refusing.meets(rt);
        assert!(rt; may_want(request, wanted), "{request:?} wants memory");
        is_as_before(rt, volume, &image, mounted, entries);
        answer = volume.request(1, 1, USER, *request);
    }
    is_answered(rt, request, &answer, wanted);
    Ok(())
}

/// Makes the requests of rows on a volume of this image, each with its answer, and counts what is free at last.
fn plays_poor(
    rt: &(impl Abort + Env),
    alloc: Global,
    image: Image,
    rows: &[Row],
    free: (u32, u32),
) -> Result<(), Fail> {
    let mut refusing = Refusing::of(rt);
    let mounted = image.copy()?;
    let mut volume = poor_volume(rt, alloc, &mut refusing, image)?;
    for (request, wanted) in rows {
        ask_poor(rt, &mut refusing, &mut volume, &mounted, request, wanted)?;
    }
    assert!(rt; (volume.free_count(), volume.number_count()) == free);
    ends(rt, alloc);
    Ok(())
}

/// Looks at a file and a directory, and changes the file.
#[test]
fn refused_memory_changes_nothing(rt: HostRuntime) -> Result<(), Fail> {
    let lines = Answer::Names(reserved_lines(rt.alloc())?);
    let found = Answer::Found(reserved_id(2), 1);
    let rows = [
        (read(FIRST, 1), bytes(old_block())),
        (read(FIRST, 2), Err(Refusal::NoSuchBlock)),
        (list(MASTER), Ok(lines)),
        (stat(FIRST), shown(contiguous_stat([0; 32]))),
        (look_for_bitmap(), Ok(found)),
        (set_user(FIRST, [2; 32]), Ok(Answer::Done)),
        (write_a(FIRST, 1), Ok(Answer::Done)),
    ];
    let image = contiguous_file(rt.alloc(), PROTECTION)?;
    plays_poor(&rt, rt.alloc(), image, &rows, (17, 10))
}

/// A file of three blocks, which are zeros where old bytes stood.
#[test]
fn refused_memory_in_a_new_file(rt: HostRuntime) -> Result<(), Fail> {
    let rows = [
        (create(&rt, a_txt(), 3), made(6, 1)),
        (read(FIRST, 3), bytes(Block::zeros())),
        (read(FIRST, 0), Err(Refusal::NoSuchBlock)),
        (read(FIRST, 4), Err(Refusal::NoSuchBlock)),
        (stat(FIRST), shown(made_stat(FIRST, &a_txt(), plain(3)))),
    ];
    let image = sample_of(40).image(rt.alloc())?;
    plays_poor(&rt, rt.alloc(), image, &rows, (15, 10))
}

/// Enters A.TXT in file 7,1 under the next version, which is this.
fn entered(version: u16) -> Row {
    let request = enter(id(7, 1), a_txt(), None, FIRST);
    (request, Ok(Answer::Entered(version)))
}

/// A Truncate that is accepted.
fn cut(file: FileId, blocks: u32) -> Row {
    (truncate(file, blocks), Ok(Answer::Truncated(blocks)))
}

/// Requests that take and give back blocks, headers and names, and requests for more than there is.
#[test]
fn refused_memory_leaves_growth_undone(rt: HostRuntime) -> Result<(), Fail> {
    let gone = remove(id(7, 1), a_txt(), Pick::Lowest);
    let rows = [
        (create(&rt, a_txt(), 2), made(6, 1)),
        (extend(FIRST, 3), Ok(Answer::Extended(5))),
        (create(&rt, sub_dir(), 0), made(7, 1)),
        entered(1),
        entered(2),
        entered(3),
        (gone, Ok(Answer::Removed(FIRST, 1))),
        (extend(FIRST, 13), Err(Refusal::VolumeFull)),
        (delete(id(7, 1)), Err(Refusal::NotEmpty)),
        (delete(FIRST), Ok(Answer::Done)),
    ];
    let image = sample_of(40).image(rt.alloc())?;
    plays_poor(&rt, rt.alloc(), image, &rows, (17, 10))
}

/// P.DAT and Q.DAT, files 6,1 and 7,1, with 102 blocks each in turn, so that no first header has room for a pointer more.
pub fn two_full_headers(alloc: Global) -> Result<Image, Fail> {
    two_full_headers_below(alloc, 16)
}

/// The same, with this H.FMAX.
fn two_full_headers_below(alloc: Global, most_files: u16) -> Result<Image, Fail> {
    let mut even = [run(0, 0); 102];
    let mut odd = even;
    for k in 0..102 {
        even[k] = run(22 + 2 * k as u32, 1);
        odd[k] = run(23 + 2 * k as u32, 1);
    }
    Variant {
        most_files,
        headers: &[in_block(8, b'P', &even), in_block(9, b'Q', &odd)],
        ..sample_of(512)
    }
    .image(alloc)
}

/// The header of the file whose header stands there, with this letter and these blocks.
fn in_block(lbn: u32, letter: u8, runs: &[Run]) -> (u32, Block) {
    (lbn, added(lbn as u16 - 2, dat(letter)).mapping(runs))
}

/// Each of two files gets an extension header, and both are deleted.
#[test]
fn refused_memory_in_extension_headers(rt: HostRuntime) -> Result<(), Fail> {
    let rows = [
        (extend(FIRST, 1), Ok(Answer::Extended(103))),
        (extend(SECOND, 1), Ok(Answer::Extended(103))),
        (read(FIRST, 103), bytes(Block::zeros())),
        (read(SECOND, 103), bytes(Block::zeros())),
        (delete(FIRST), Ok(Answer::Done)),
        (delete(SECOND), Ok(Answer::Done)),
    ];
    let image = two_full_headers(rt.alloc())?;
    plays_poor(&rt, rt.alloc(), image, &rows, (490, 11))
}

/// Each of two files gets an extension header, and both are cut: to all they have, so that they keep it, in front of it, and to nothing.
#[test]
fn refused_memory_in_cuts(rt: HostRuntime) -> Result<(), Fail> {
    let rows = [
        (extend(FIRST, 1), Ok(Answer::Extended(103))),
        (extend(SECOND, 1), Ok(Answer::Extended(103))),
        cut(FIRST, 103),
        cut(FIRST, 102),
        cut(SECOND, 50),
        (truncate(SECOND, 51), Err(Refusal::BadCount)),
        cut(FIRST, 0),
        (read(FIRST, 1), Err(Refusal::NoSuchBlock)),
        (read(SECOND, 50), bytes(old_block())),
    ];
    let image = two_full_headers(rt.alloc())?;
    plays_poor(&rt, rt.alloc(), image, &rows, (440, 9))
}

/// The 33rd name takes a directory's second block.
#[test]
fn refused_memory_in_a_directory_that_grows(rt: HostRuntime) -> Result<(), Fail> {
    let mut rows = Vec::new(rt.alloc());
    rows.push((create(&rt, sub_dir(), 1), made(6, 1)))?;
    rows.push((create(&rt, dat(b'X'), 0), made(7, 1)))?;
    for version in 1..34 {
        let request = enter(FIRST, dat(b'X'), None, SECOND);
        rows.push((request, Ok(Answer::Entered(version))))?;
    }
    let image = sample_of(40).image(rt.alloc())?;
    plays_poor(&rt, rt.alloc(), image, rows.as_slice(), (16, 9))
}

/// Each of two files gets an extension header behind the last number, and so does a new file its first: INDEXF.SYS grows in each.
#[test]
fn refused_memory_in_an_index_that_grows(rt: HostRuntime) -> Result<(), Fail> {
    let mut rows = Vec::new(rt.alloc());
    for number in 8..17 {
        rows.push((create(&rt, dat(b'B'), 0), made(number, 1)))?;
    }
    rows.push((extend(FIRST, 1), Ok(Answer::Extended(103))))?;
    rows.push((create(&rt, a_txt(), 2), made(18, 1)))?;
    rows.push((extend(SECOND, 1), Ok(Answer::Extended(103))))?;
    rows.push((create(&rt, dat(b'B'), 0), Err(Refusal::HeadersFull)))?;
    rows.push((delete(FIRST), Ok(Answer::Done)))?;
    let image = two_full_headers_below(rt.alloc(), 19)?;
    plays_poor(&rt, rt.alloc(), image, rows.as_slice(), (382, 2))
}
