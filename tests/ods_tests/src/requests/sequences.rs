//! The published sequences of requests, each answer as a value.
use super::rows::{
    bytes, list, look, look_for_bitmap, read, remove, set_user, shown, stat, write, write_a,
};
use super::trial::{Trial, ends_with, has_entries, has_totals, plays, start};
use crate::contiguous::{contiguous_file, contiguous_stat};
use crate::persons::{
    FIRST, MASTER, PROTECTION, a_txt, bitmap, index_stat, letter_a, old_block, other_attributes,
    reserved_id, reserved_lines,
};
use crate::volumes::sample_of;
use Refusal::{
    IsDirectory, ListFull, NoSuchBlock, NoSuchFile, NoSuchName, NotADirectory, Reserved,
};
use ods_base::{Block, FileId, Pick};
use ods_request::{Answer, Refusal, Request};
use std::alloc::Global;
use std::process::Abort;
use std::test::Fail;

/// C.DAT is read and written, its attributes are set, and a name is looked up.
fn writes(rt: &impl Abort, alloc: Global, it: &mut Trial) -> Result<(), Fail> {
    let other = other_attributes();
    let found = Answer::Found(reserved_id(2), 1);
    let rows = [
        (read(FIRST, 1), bytes(old_block())),
        (write_a(FIRST, 1), Ok(Answer::Done)),
        (read(FIRST, 1), bytes(letter_a())),
        (set_user(FIRST, other), Ok(Answer::Done)),
        (stat(FIRST), shown(contiguous_stat(other))),
        (look_for_bitmap(), Ok(found)),
    ];
    has_totals(rt, it, (0, 17, 10));
    plays(rt, alloc, it, &rows)?;
    has_entries(rt, it, 6);
    Ok(())
}

/// The mounted image is as it was.
fn keeps_mounted(rt: &impl Abort, alloc: Global, it: &Trial) -> Result<(), Fail> {
    let wanted = contiguous_file(alloc, PROTECTION)?;
    assert!(rt; it.volume.mounted().is(&wanted));
    Ok(())
}

#[test]
fn contiguous_file_is_read_and_written(rt: HostRuntime) -> Result<(), Fail> {
    let image = contiguous_file(rt.alloc(), PROTECTION)?;
    let mut it = start(&rt, rt.alloc(), image, 4_096)?;
    writes(&rt, rt.alloc(), &mut it)?;
    keeps_mounted(&rt, rt.alloc(), &it)
}

/// A Stat of INDEXF.SYS.
fn stat_of_index() -> Request {
    stat(reserved_id(1))
}

/// The list has room for two.
fn fills_list(rt: &impl Abort, alloc: Global, it: &mut Trial) -> Result<(), Fail> {
    let rows = [
        (stat_of_index(), shown(index_stat())),
        (stat_of_index(), shown(index_stat())),
        (stat_of_index(), Err(ListFull)),
    ];
    plays(rt, alloc, it, &rows)?;
    has_entries(rt, it, 2);
    Ok(())
}

#[test]
fn full_list_is_refused(rt: HostRuntime) -> Result<(), Fail> {
    let image = sample_of(40).image(rt.alloc())?;
    fills_list(&rt, rt.alloc(), &mut start(&rt, rt.alloc(), image, 2)?)
}

#[test]
fn master_directory_is_listed(rt: HostRuntime) -> Result<(), Fail> {
    let lines = Answer::Names(reserved_lines(rt.alloc())?);
    let rows = [
        (stat_of_index(), shown(index_stat())),
        (list(MASTER), Ok(lines)),
    ];
    ends_with(&rt, rt.alloc(), 40, &rows, (2, 18, 11))
}

/// What reserved files refuse, and files that are none, are no directories, or have no block.
#[test]
fn reserved_files_are_refused(rt: HostRuntime) -> Result<(), Fail> {
    let other = FileId {
        number: 4,
        sequence: 5,
    };
    let rows = [
        (read(reserved_id(1), 1), Err(Reserved)),
        (write(MASTER, 1, Block::zeros()), Err(Reserved)),
        (read(MASTER, 1), Err(IsDirectory)),
        (
            look(reserved_id(3), a_txt(), Pick::Highest),
            Err(NotADirectory),
        ),
        (read(reserved_id(3), 1), Err(NoSuchBlock)),
        (read(other, 1), Err(NoSuchFile)),
    ];
    ends_with(&rt, rt.alloc(), 40, &rows, (0, 18, 11))
}

/// A Remove of the highest version of BITMAP.SYS from the master directory.
fn remove_bitmap() -> Request {
    remove(MASTER, bitmap(), Pick::Highest)
}

/// BITMAP.SYS is removed, and then is not there.
#[test]
fn name_is_removed(rt: HostRuntime) -> Result<(), Fail> {
    let removed = Answer::Removed(reserved_id(2), 1);
    let rows = [
        (remove_bitmap(), Ok(removed)),
        (remove_bitmap(), Err(NoSuchName)),
        (look_for_bitmap(), Err(NoSuchName)),
    ];
    ends_with(&rt, rt.alloc(), 40, &rows, (1, 18, 11))
}
