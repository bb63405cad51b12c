//! `rm`: names go, and files for which no name is left.
use super::{
    asked, done, filing_for, is_refused, make_directories, paths, put, remove_files, the, volume_of,
};
use crate::persons::{MASTER, USER};
use ods_base::{FileId, parse_name};
use ods_mount::Mounted;
use ods_request::{Refusal, Request};
use ods_shell::PathFault;
use ods_upkeep::{Removal, Why};
use std::alloc::Global;
use std::process::Abort;
use std::test::Fail;

const PLAIN: Removal = Removal {
    entry_alone: false,
    newest: false,
};

/// Another name in the master directory.
fn with_name(alloc: Global, volume: Mounted, name: &[u8], file: FileId) -> Result<Mounted, Fail> {
    let (name, _) = parse_name(name).ok().ok_or("a name")?;
    let mut filing = filing_for(alloc, volume, USER);
    filing.request(&Request::Enter {
        dir: MASTER,
        name,
        version: None,
        file,
    })?;
    Ok(filing.into_mounted())
}

#[test]
fn a_file_goes_with_its_last_name(rt: HostRuntime) -> Result<(), Fail> {
    let alloc = rt.alloc();
    let volume = put(alloc, volume_of(alloc, 40)?, "A.TXT", "x", b"1\n")?;
    let file = the(alloc, &volume, "A.TXT")?.facts.ok_or("a file")?.file;
    let volume = with_name(alloc, volume, b"B.TXT", file)?;
    let volume = done(
        alloc,
        remove_files(alloc, volume, &asked()?, &["A.TXT;1"], PLAIN),
    )?;
    assert!(rt; paths(alloc, &volume, "?.TXT;*")?.as_str() == "[0,0]B.TXT;1 ");
    assert!(rt; the(alloc, &volume, "B.TXT")?.facts.is_some());
    let named = remove_files(alloc, volume, &asked()?, &["#6,1"], PLAIN);
    assert!(rt; is_refused(named, "#6,1", Why::IsNamed));
    let volume = put(alloc, volume_of(alloc, 40)?, "A.TXT", "x", b"1\n")?;
    let volume = with_name(alloc, volume, b"B.TXT", file)?;
    let volume = done(
        alloc,
        remove_files(alloc, volume, &asked()?, &["?.TXT;*", "A.TXT;1"], PLAIN),
    )?;
    assert!(rt; paths(alloc, &volume, "#6,1")?.is_empty());
    Ok(())
}

#[test]
fn an_entry_alone_leaves_its_file(rt: HostRuntime) -> Result<(), Fail> {
    let alloc = rt.alloc();
    let volume = put(alloc, volume_of(alloc, 40)?, "A.TXT", "x", b"1\n")?;
    let alone = Removal {
        entry_alone: true,
        newest: true,
    };
    let volume = done(
        alloc,
        remove_files(alloc, volume, &asked()?, &["A.TXT"], alone),
    )?;
    assert!(rt; paths(alloc, &volume, "A.TXT;*")?.is_empty());
    assert!(rt; paths(alloc, &volume, "#6,1")?.as_str() == "#6,1 ");
    // Now no entry names it.
    let volume = done(
        alloc,
        remove_files(alloc, volume, &asked()?, &["#6,1"], PLAIN),
    )?;
    assert!(rt; paths(alloc, &volume, "#6,1")?.is_empty());
    Ok(())
}

#[test]
fn an_entry_of_no_file_goes(rt: HostRuntime) -> Result<(), Fail> {
    let alloc = rt.alloc();
    let volume = put(alloc, volume_of(alloc, 40)?, "A.TXT", "x", b"1\n")?;
    let file = the(alloc, &volume, "A.TXT")?.facts.ok_or("a file")?.file;
    let mut filing = filing_for(alloc, volume, USER);
    filing.request(&Request::Delete { file })?;
    let volume = filing.into_mounted();
    let volume = done(
        alloc,
        remove_files(alloc, volume, &asked()?, &["A.TXT;*"], PLAIN),
    )?;
    assert!(rt; paths(alloc, &volume, "A.TXT;*")?.is_empty());
    Ok(())
}

#[test]
fn what_is_not_removed(rt: HostRuntime) -> Result<(), Fail> {
    let alloc = rt.alloc();
    let asked = asked()?;
    let unsaid = remove_files(alloc, volume_of(alloc, 40)?, &asked, &["CORIMG.SYS"], PLAIN);
    assert!(rt; is_refused(unsaid, "CORIMG.SYS", Why::Path(PathFault::NoVersion)));
    let reserved = remove_files(
        alloc,
        volume_of(alloc, 40)?,
        &asked,
        &["CORIMG.SYS;1"],
        PLAIN,
    );
    assert!(rt;
        is_refused(
            reserved,
            "[0,0]CORIMG.SYS;1",
            Why::Request(Refusal::Reserved)
        )
    );
    let directory = remove_files(
        alloc,
        volume_of(alloc, 40)?,
        &asked,
        &["000000.DIR;1"],
        PLAIN,
    );
    assert!(rt;
        is_refused(
            directory,
            "[0,0]000000.DIR;1",
            Why::Request(Refusal::Reserved)
        )
    );
    let made = make_directories(alloc, volume_of(alloc, 40)?, &asked, &["A"], 0, None);
    let id = remove_files(alloc, done(alloc, made)?, &asked, &["#6,1"], PLAIN);
    assert!(rt; is_refused(id, "#6,1", Why::IsDirectory));
    let none = remove_files(alloc, volume_of(alloc, 40)?, &asked, &["#9,1"], PLAIN);
    assert!(rt; is_refused(none, "#9,1", Why::Path(PathFault::NoSuchFile)));
    Ok(())
}
