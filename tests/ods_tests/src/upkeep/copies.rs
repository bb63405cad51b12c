//! `cp`: blocks and attributes of files once more.
use super::{
    asked, asked_by, copy_files, done, has, is_refused, make_directories, paths, put, the,
    truncate_file, volume_of,
};
use crate::persons::STRANGER;
use ods_request::Refusal;
use ods_shell::PathFault;
use ods_upkeep::Why;
use std::process::Abort;
use std::test::Fail;

#[test]
fn a_copy_has_the_blocks_and_the_attributes(rt: HostRuntime) -> Result<(), Fail> {
    let alloc = rt.alloc();
    let volume = put(alloc, volume_of(alloc, 40)?, "A.TXT", "x", b"AB\nC\n")?;
    let volume = done(
        alloc,
        copy_files(alloc, volume, &asked()?, &["A.TXT"], "B.TXT"),
    )?;
    assert!(rt; has(alloc, &volume, "B.TXT;1", b"AB\nC\n")?);
    let old = the(alloc, &volume, "A.TXT")?.facts.ok_or("a file")?;
    let new = the(alloc, &volume, "B.TXT")?.facts.ok_or("a file")?;
    assert!(rt; old.attributes == new.attributes && old.file != new.file);
    Ok(())
}

#[test]
fn versions_stay_in_order(rt: HostRuntime) -> Result<(), Fail> {
    let alloc = rt.alloc();
    let volume = put(alloc, volume_of(alloc, 40)?, "A.TXT;3", "x", b"3\n")?;
    let volume = put(alloc, volume, "A.TXT;9", "x", b"9\n")?;
    let volume = done(
        alloc,
        make_directories(alloc, volume, &asked()?, &["D"], 0, None),
    )?;
    let volume = done(
        alloc,
        copy_files(alloc, volume, &asked()?, &["A.TXT;*"], "[D]"),
    )?;
    assert!(rt; paths(alloc, &volume, "[D]*.*;*")?.as_str() == "[D]A.TXT;2 [D]A.TXT;1 ");
    assert!(rt; has(alloc, &volume, "[D]A.TXT;2", b"9\n")?);
    Ok(())
}

#[test]
fn what_cannot_be_copied(rt: HostRuntime) -> Result<(), Fail> {
    let alloc = rt.alloc();
    let asked = asked()?;
    let directory = copy_files(alloc, volume_of(alloc, 40)?, &asked, &["000000.DIR"], "A.B");
    assert!(rt; is_refused(directory, "[0,0]000000.DIR;1", Why::IsDirectory));
    let map = copy_files(alloc, volume_of(alloc, 40)?, &asked, &["INDEXF.SYS"], "A.B");
    assert!(rt; is_refused(map, "[0,0]INDEXF.SYS;1", Why::Request(Refusal::Reserved)));
    let none = copy_files(alloc, volume_of(alloc, 40)?, &asked, &["X.Y"], "A.B");
    assert!(rt; is_refused(none, "X.Y", Why::Path(PathFault::Nothing)));
    let two = copy_files(alloc, volume_of(alloc, 40)?, &asked, &["*.SYS"], "A.B");
    assert!(rt; is_refused(two, "A.B", Why::Several));
    let nowhere = copy_files(alloc, volume_of(alloc, 40)?, &asked, &["CORIMG.SYS"], "[E]");
    assert!(rt; is_refused(nowhere, "[E]", Why::Path(PathFault::Nothing)));
    let kind = copy_files(
        alloc,
        volume_of(alloc, 40)?,
        &asked,
        &["CORIMG.SYS"],
        "A.DIR",
    );
    assert!(rt; is_refused(kind, "[0,0]CORIMG.SYS;1", Why::DirectoryType));
    Ok(())
}

#[test]
fn nothing_is_left_of_a_command_that_is_refused(rt: HostRuntime) -> Result<(), Fail> {
    let alloc = rt.alloc();
    let denied = copy_files(
        alloc,
        volume_of(alloc, 40)?,
        &asked_by(STRANGER)?,
        &["CORIMG.SYS"],
        "A.B",
    );
    assert!(rt; is_refused(denied, "[0,0]CORIMG.SYS;1", Why::Request(Refusal::Denied)));
    Ok(())
}

#[test]
fn blocks_behind_the_end_are_copied(rt: HostRuntime) -> Result<(), Fail> {
    let alloc = rt.alloc();
    let volume = put(alloc, volume_of(alloc, 40)?, "A.DAT", "x", &[9; 1_030])?;
    let volume = done(alloc, truncate_file(alloc, volume, &asked()?, "A.DAT", 514))?;
    let volume = done(
        alloc,
        copy_files(alloc, volume, &asked()?, &["A.DAT"], "B.DAT"),
    )?;
    let new = the(alloc, &volume, "B.DAT")?.facts.ok_or("a file")?;
    assert!(rt; new.blocks == 2 && new.bytes == 514);
    Ok(())
}
