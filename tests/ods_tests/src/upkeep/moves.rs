//! `mv`: names go elsewhere, or become others.
use super::{
    asked, done, has, is_refused, make_directories, move_names, paths, put, the, volume_of,
};
use ods_request::Refusal;
use ods_upkeep::Why;
use std::process::Abort;
use std::test::Fail;

#[test]
fn a_name_becomes_another(rt: HostRuntime) -> Result<(), Fail> {
    let alloc = rt.alloc();
    let volume = put(alloc, volume_of(alloc, 40)?, "A.TXT;3", "x", b"1\n")?;
    let volume = put(alloc, volume, "A.TXT;5", "x", b"2\n")?;
    let old = the(alloc, &volume, "A.TXT;3")?.facts.ok_or("a file")?;
    let volume = done(
        alloc,
        move_names(alloc, volume, &asked()?, &["A.TXT;3"], "B.TXT"),
    )?;
    assert!(rt; paths(alloc, &volume, "?.TXT;*")?.as_str() == "[0,0]A.TXT;5 [0,0]B.TXT;1 ");
    let new = the(alloc, &volume, "B.TXT")?.facts.ok_or("a file")?;
    assert!(rt; old.file == new.file);
    // To the name that it has: the next version, in its place.
    let volume = done(
        alloc,
        move_names(alloc, volume, &asked()?, &["A.TXT"], "A.TXT"),
    )?;
    assert!(rt; paths(alloc, &volume, "A.TXT;*")?.as_str() == "[0,0]A.TXT;6 ");
    assert!(rt; has(alloc, &volume, "A.TXT", b"2\n")?);
    Ok(())
}

#[test]
fn names_go_into_a_directory(rt: HostRuntime) -> Result<(), Fail> {
    let alloc = rt.alloc();
    let volume = put(alloc, volume_of(alloc, 40)?, "A.TXT", "x", b"1\n")?;
    let volume = put(alloc, volume, "B.TXT", "x", b"2\n")?;
    let volume = done(
        alloc,
        make_directories(alloc, volume, &asked()?, &["1,2", "E"], 0, None),
    )?;
    let volume = done(
        alloc,
        move_names(alloc, volume, &asked()?, &["?.TXT"], "[1,2]"),
    )?;
    assert!(rt; paths(alloc, &volume, "[...]?.TXT;*")?.as_str() == "[1,2]A.TXT;1 [1,2]B.TXT;1 ");
    let volume = done(
        alloc,
        move_names(alloc, volume, &asked()?, &["001002.DIR"], "E"),
    )?;
    assert!(rt;
        paths(alloc, &volume, "[E.001002]*.*;*")?.as_str() == "[E.001002]A.TXT;1 [E.001002]B.TXT;1 "
    );
    Ok(())
}

#[test]
fn what_cannot_be_moved(rt: HostRuntime) -> Result<(), Fail> {
    let alloc = rt.alloc();
    let asked = asked()?;
    let made = make_directories(alloc, volume_of(alloc, 40)?, &asked, &["A", "A/B"], 0, None);
    let into = move_names(alloc, done(alloc, made)?, &asked, &["A.DIR"], "[A.B]");
    assert!(rt; is_refused(into, "[0,0]A.DIR;1", Why::IntoItself));
    let made = make_directories(alloc, volume_of(alloc, 40)?, &asked, &["A"], 0, None);
    let itself = move_names(alloc, done(alloc, made)?, &asked, &["A.DIR"], "[A]");
    assert!(rt; is_refused(itself, "[0,0]A.DIR;1", Why::IntoItself));
    let made = make_directories(alloc, volume_of(alloc, 40)?, &asked, &["A"], 0, None);
    let kind = move_names(alloc, done(alloc, made)?, &asked, &["A.DIR"], "A.TXT");
    assert!(rt; is_refused(kind, "[0,0]A.DIR;1", Why::DirectoryType));
    let id = move_names(alloc, volume_of(alloc, 40)?, &asked, &["#5,5"], "A.TXT");
    assert!(rt; is_refused(id, "#5,5", Why::IsId));
    let volume = put(alloc, volume_of(alloc, 40)?, "A.TXT", "x", b"1\n")?;
    let volume = put(alloc, volume, "B.TXT", "x", b"2\n")?;
    let taken = move_names(alloc, volume, &asked, &["A.TXT"], "B.TXT;1");
    assert!(rt; is_refused(taken, "[0,0]A.TXT;1", Why::Request(Refusal::NameTaken)));
    Ok(())
}
