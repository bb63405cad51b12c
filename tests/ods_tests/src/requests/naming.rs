//! Published sequences of Enter, LookUp, Remove and List, and of who may do what.
use super::growing::header_of;
use super::rows::{
    Reply, a_txt, bytes, create, dat, delete, enter, list, look, made, made_stat, read, remove,
    shown, stat, sub_dir, write_a,
};
use super::trial::{Trial, ask, ends_with, has_totals, on_sample, played, plays};
use crate::persons::{COLLEAGUE, FIRST, MASTER, OWNER, SECOND, STRANGER, SYSTEM, USER};
use crate::volumes::block_of;
use Refusal::{Denied, NameTaken, NoSuchFile, NoSuchName, NotEmpty, VersionsFull};
use ods_base::{Block, Listed, Pick};
use ods_request::{Answer, Kind, Listing, Refusal, Request};
use std::alloc::{AllocError, Global};
use std::process::Abort;
use std::test::Fail;

/// An Enter of FIRST in the master directory as A.TXT.
fn enter_first(version: Option<u16>) -> Request {
    enter(MASTER, a_txt(), version, FIRST)
}

/// The answer to an Enter.
fn entered(version: u16) -> Reply {
    Ok(Answer::Entered(version))
}

/// A LookUp of A.TXT in the master directory.
fn look_for_a(pick: Pick) -> Request {
    look(MASTER, a_txt(), pick)
}

/// The answer to a LookUp of FIRST.
fn first_found(version: u16) -> Reply {
    Ok(Answer::Found(FIRST, version))
}

#[test]
fn versions_rise(rt: HostRuntime) -> Result<(), Fail> {
    let rows = [
        (create(&rt, a_txt(), 0), made(6, 1)),
        (enter_first(None), entered(1)),
        (enter_first(None), entered(2)),
        (enter_first(None), entered(3)),
        (look_for_a(Pick::Highest), first_found(3)),
        (look_for_a(Pick::Lowest), first_found(1)),
        (look_for_a(Pick::Exact(4)), Err(NoSuchName)),
    ];
    ends_with(&rt, rt.alloc(), 40, &rows, (6, 18, 10))
}

/// A.TXT is entered under its last version.
#[test]
fn last_version_is_the_last(rt: HostRuntime) -> Result<(), Fail> {
    let rows = [
        (create(&rt, a_txt(), 0), made(6, 1)),
        (enter_first(Some(32_767)), entered(32_767)),
        (enter_first(None), Err(VersionsFull)),
        (enter_first(Some(32_767)), Err(NameTaken)),
    ];
    ends_with(&rt, rt.alloc(), 40, &rows, (2, 18, 10))
}

/// An Enter of SECOND in FIRST as X.DAT, under the next version.
fn enter_x() -> Request {
    enter(FIRST, dat(b'X'), None, SECOND)
}

/// A Remove of X.DAT from FIRST.
fn remove_x(pick: Pick) -> Request {
    remove(FIRST, dat(b'X'), pick)
}

/// The answer to a Remove of version 1 of it.
fn removed_x() -> Reply {
    Ok(Answer::Removed(SECOND, 1))
}

/// A trial on 40 blocks with SUB.DIR of so many blocks as file 6, and X.DAT as file 7.
fn with_sub_dir(rt: &impl Abort, alloc: Global, blocks: u32) -> Result<Trial, Fail> {
    let rows = [
        (create(rt, sub_dir(), blocks), made(6, 1)),
        (create(rt, dat(b'X'), 0), made(7, 1)),
    ];
    played(rt, alloc, 40, &rows)
}

/// Enters X.DAT in SUB.DIR so many times.
fn enters_x(rt: &impl Abort, alloc: Global, it: &mut Trial, versions: u16) -> Result<(), Fail> {
    for version in 1..versions.saturating_add(1) {
        ask(rt, alloc, it, USER, &enter_x(), &entered(version))?;
    }
    Ok(())
}

/// 33 versions of X.DAT.
fn lines_of_x(alloc: Global) -> Result<Listing, AllocError> {
    let mut lines = Vec::new(alloc);
    for version in 1..34 {
        lines.push(Listed {
            name: dat(b'X'),
            version,
            file: SECOND,
        })?;
    }
    Ok(Listing::new(lines))
}

/// F.HIBK, F.EFBK and F.FFBY of SUB.DIR.
fn end_of(trial: &Trial) -> Result<[u8; 10], Fail> {
    let header = header_of(trial.volume.image(), 6)?;
    let mut end = [0; 10];
    end.copy_from_slice(&header.attributes[4..14]);
    Ok(end)
}

/// SUB.DIR ends so.
fn ends(rt: &impl Abort, trial: &Trial, wanted: &[u8; 10]) -> Result<(), Fail> {
    assert!(rt; end_of(trial)? == *wanted, "SUB.DIR ends otherwise");
    Ok(())
}

/// A block of the volume begins with this byte.
fn begins(rt: &impl Abort, trial: &Trial, lbn: u32, byte: u8) -> Result<(), Fail> {
    assert!(rt; block_of(trial.volume.image(), lbn)?.byte(0) == byte);
    Ok(())
}

/// Behind the first entry of a block are zeros.
fn has_one_entry(rt: &impl Abort, block: &Block) {
    for at in 16..512 {
        assert!(rt; block.byte(at) == 0, "byte {at}");
    }
}

/// SUB.DIR and its lines are shown.
fn shows_x(rt: &impl Abort, alloc: Global, it: &mut Trial) -> Result<(), Fail> {
    let kind = Kind::Directory { names: 33 };
    let lines = Answer::Names(lines_of_x(alloc)?);
    let rows = [
        (stat(FIRST), shown(made_stat(FIRST, &sub_dir(), kind))),
        (list(FIRST), Ok(lines)),
    ];
    plays(rt, alloc, it, &rows)?;
    has_totals(rt, it, (37, 16, 9));
    Ok(())
}

/// SUB.DIR has a second block, LBN 23, with one entry.
fn has_two_blocks(rt: &impl Abort, it: &Trial) -> Result<(), Fail> {
    // F.HIBK 2, F.EFBK 2, F.FFBY 16: words, the high one first.
    ends(rt, it, &[0, 0, 2, 0, 0, 0, 2, 0, 16, 0])?;
    begins(rt, it, 23, 7)?;
    has_one_entry(rt, block_of(it.volume.image(), 23)?);
    Ok(())
}

/// SUB.DIR gets one name more than a block holds.
fn takes_a_block(rt: &impl Abort, alloc: Global, it: &mut Trial) -> Result<(), Fail> {
    enters_x(rt, alloc, it, 33)?;
    shows_x(rt, alloc, it)?;
    has_two_blocks(rt, it)
}

#[test]
fn directory_takes_a_block(rt: HostRuntime) -> Result<(), Fail> {
    takes_a_block(&rt, rt.alloc(), &mut with_sub_dir(&rt, rt.alloc(), 1)?)
}

/// SUB.DIR is deleted.
fn goes(rt: &impl Abort, alloc: Global, it: &mut Trial) -> Result<(), Fail> {
    let rows = [
        (delete(FIRST), Ok(Answer::Done)),
        (read(FIRST, 1), Err(NoSuchFile)),
    ];
    plays(rt, alloc, it, &rows)?;
    has_totals(rt, it, (5, 18, 10));
    Ok(())
}

/// SUB.DIR is not deleted while it has a name.
fn empties(rt: &impl Abort, alloc: Global, it: &mut Trial) -> Result<(), Fail> {
    let rows = [
        (enter_x(), entered(1)),
        (delete(FIRST), Err(NotEmpty)),
        (remove_x(Pick::Highest), removed_x()),
    ];
    plays(rt, alloc, it, &rows)?;
    // The mark stays where it was.
    ends(rt, it, &[0, 0, 1, 0, 0, 0, 1, 0, 16, 0])
}

#[test]
fn directory_is_deleted_when_it_is_empty(rt: HostRuntime) -> Result<(), Fail> {
    let mut it = with_sub_dir(&rt, rt.alloc(), 0)?;
    empties(&rt, rt.alloc(), &mut it)?;
    goes(&rt, rt.alloc(), &mut it)
}

/// A name goes where one was removed: at the first entry of LBN 22.
fn takes_an_entry(rt: &impl Abort, alloc: Global, it: &mut Trial) -> Result<(), Fail> {
    enters_x(rt, alloc, it, 3)?;
    plays(rt, alloc, it, &[(remove_x(Pick::Lowest), removed_x())])?;
    let before = end_of(it)?;
    let request = enter(FIRST, a_txt(), Some(9), MASTER);
    plays(rt, alloc, it, &[(request, entered(9))])?;
    ends(rt, it, &before)?;
    begins(rt, it, 22, 4)
}

#[test]
fn empty_entry_is_taken_before_the_mark(rt: HostRuntime) -> Result<(), Fail> {
    takes_an_entry(&rt, rt.alloc(), &mut with_sub_dir(&rt, rt.alloc(), 1)?)
}

/// What the owner of A.TXT, a stranger, a colleague and the system may do.
fn have_rights(rt: &impl Abort, alloc: Global, it: &mut Trial) -> Result<(), Fail> {
    for (who, request, wanted) in &[
        (OWNER, create(rt, a_txt(), 1), made(6, 1)),
        (OWNER, enter_first(None), Err(Denied)),
        (STRANGER, write_a(FIRST, 1), Err(Denied)),
        (STRANGER, read(FIRST, 1), bytes(Block::zeros())),
        (COLLEAGUE, write_a(FIRST, 1), Ok(Answer::Done)),
        (SYSTEM, delete(FIRST), Ok(Answer::Done)),
    ] {
        ask(rt, alloc, it, *who, request, wanted)?;
    }
    has_totals(rt, it, (4, 18, 11));
    Ok(())
}

#[test]
fn rights_of_four_users(rt: HostRuntime) -> Result<(), Fail> {
    have_rights(&rt, rt.alloc(), &mut on_sample(&rt, rt.alloc(), 40)?)
}

/// A file that a name still names is gone, and the name stays.
#[test]
fn name_outlives_its_file(rt: HostRuntime) -> Result<(), Fail> {
    let rows = [
        (create(&rt, a_txt(), 0), made(6, 1)),
        (enter_first(None), entered(1)),
        (delete(FIRST), Ok(Answer::Done)),
        (look_for_a(Pick::Highest), first_found(1)),
        (enter_first(None), Err(NoSuchFile)),
    ];
    ends_with(&rt, rt.alloc(), 40, &rows, (4, 18, 11))
}
