//! `purge`: of each name the highest versions stay.
use super::{
    asked, asked_by, done, filing_for, is_refused, make_directories, paths, purge_files, put, the,
    volume_of,
};
use crate::persons::{MASTER, USER};
use ods_base::{Uic, parse_name};
use ods_mount::Mounted;
use ods_request::{Refusal, Request};
use ods_shell::PathFault;
use ods_upkeep::Why;
use std::alloc::Global;
use std::process::Abort;
use std::test::Fail;

/// A volume with A.TXT;1 to ;4 and B.TXT;7 and ;9 in the master directory, and A.TXT;1 and ;2 in D.
fn with_versions(alloc: Global) -> Result<Mounted, Fail> {
    let made = make_directories(alloc, volume_of(alloc, 200)?, &asked()?, &["D"], 0, None);
    let mut volume = done(alloc, made)?;
    for path in [
        "A.TXT;3", "A.TXT;1", "B.TXT;9", "A.TXT;4", "A.TXT;2", "B.TXT;7", "D/A.TXT", "D/A.TXT",
    ] {
        volume = put(alloc, volume, path, "x", b"1\n")?;
    }
    Ok(volume)
}

#[test]
fn the_highest_version_of_each_name_stays(rt: HostRuntime) -> Result<(), Fail> {
    let alloc = rt.alloc();
    let purged = purge_files(alloc, with_versions(alloc)?, &asked()?, &["?.TXT"], 1);
    let volume = done(alloc, purged)?;
    assert!(rt; paths(alloc, &volume, "?.TXT;*")?.as_str() == "[0,0]A.TXT;4 [0,0]B.TXT;9 ");
    assert!(rt; paths(alloc, &volume, "D/*.*;*")?.as_str() == "[D]A.TXT;2 [D]A.TXT;1 ");
    // Seven files were made; those of the four names that went are deleted.
    assert!(rt; paths(alloc, &volume, "#8,1")?.is_empty());
    assert!(rt; paths(alloc, &volume, "#10,1")?.as_str() == "#10,1 ");
    Ok(())
}

#[test]
fn as_many_stay_as_are_kept(rt: HostRuntime) -> Result<(), Fail> {
    let alloc = rt.alloc();
    let all = &["B.TXT", "[...]*.*", "A.TXT"];
    let purged = purge_files(alloc, with_versions(alloc)?, &asked()?, all, 3);
    let volume = done(alloc, purged)?;
    assert!(rt;
        paths(alloc, &volume, "?.TXT;*")?.as_str()
            == "[0,0]A.TXT;4 [0,0]A.TXT;3 [0,0]A.TXT;2 [0,0]B.TXT;9 [0,0]B.TXT;7 "
    );
    let purged = purge_files(alloc, volume, &asked()?, all, 2);
    let volume = done(alloc, purged)?;
    assert!(rt;
        paths(alloc, &volume, "[...]?.TXT;*")?.as_str()
            == "[0,0]A.TXT;4 [0,0]A.TXT;3 [0,0]B.TXT;9 [0,0]B.TXT;7 [D]A.TXT;2 [D]A.TXT;1 "
    );
    let purged = purge_files(alloc, volume, &asked()?, all, 1);
    let volume = done(alloc, purged)?;
    assert!(rt;
        paths(alloc, &volume, "[...]?.TXT;*")?.as_str() == "[0,0]A.TXT;4 [0,0]B.TXT;9 [D]A.TXT;2 "
    );
    Ok(())
}

#[test]
fn a_file_with_another_name_stays(rt: HostRuntime) -> Result<(), Fail> {
    let alloc = rt.alloc();
    let volume = with_versions(alloc)?;
    let file = the(alloc, &volume, "A.TXT;1")?.facts.ok_or("a file")?.file;
    let (name, _) = parse_name(b"C.TXT").ok().ok_or("a name")?;
    let mut filing = filing_for(alloc, volume, USER);
    filing.request(&Request::Enter {
        dir: MASTER,
        name,
        version: None,
        file,
    })?;
    let purged = purge_files(alloc, filing.into_mounted(), &asked()?, &["A.TXT"], 1);
    let volume = done(alloc, purged)?;
    assert!(rt;
        paths(alloc, &volume, "?.TXT;*")?.as_str()
            == "[0,0]A.TXT;4 [0,0]B.TXT;9 [0,0]B.TXT;7 [0,0]C.TXT;1 "
    );
    assert!(rt; the(alloc, &volume, "C.TXT")?.facts.is_some());
    Ok(())
}

#[test]
fn what_is_not_purged(rt: HostRuntime) -> Result<(), Fail> {
    let alloc = rt.alloc();
    let asked = asked()?;
    let version = purge_files(
        alloc,
        with_versions(alloc)?,
        &asked,
        &["A.TXT", "B.TXT;9"],
        1,
    );
    assert!(rt; is_refused(version, "B.TXT;9", Why::Versioned));
    let id = purge_files(alloc, with_versions(alloc)?, &asked, &["#8,1"], 1);
    assert!(rt; is_refused(id, "#8,1", Why::IsId));
    let alone = purge_files(alloc, with_versions(alloc)?, &asked, &["D"], 1);
    assert!(rt; is_refused(alone, "D", Why::Path(PathFault::NoName)));
    let none = purge_files(alloc, with_versions(alloc)?, &asked, &["Z.TXT"], 1);
    assert!(rt; is_refused(none, "Z.TXT", Why::Path(PathFault::Nothing)));
    let other = asked_by(Uic {
        group: 0o100,
        member: 1,
    })?;
    let denied = purge_files(alloc, with_versions(alloc)?, &other, &["A.TXT"], 1);
    assert!(rt; is_refused(denied, "[0,0]A.TXT;1", Why::Request(Refusal::Denied)));
    Ok(())
}
