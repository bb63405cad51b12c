//! `mkdir` and `rmdir`.
use super::{
    asked, done, is_refused, make_directories, paths, put, remove_directories, the, volume_of,
};
use ods_paths::{Path, parse_path};
use ods_request::Refusal;
use ods_shell::PathFault;
use ods_shell::mounted::find_directories;
use ods_upkeep::Why;
use std::process::Abort;
use std::test::Fail;

#[test]
fn paths_of_directories(rt: HostRuntime) -> Result<(), Fail> {
    let alloc = rt.alloc();
    let words = ["[A]", "[1,2]", "b/", "c", "3,4", "A/D", "[A.D.E]", "F.DIR"];
    let volume = done(
        alloc,
        make_directories(alloc, volume_of(alloc, 40)?, &asked()?, &words, 33, None),
    )?;
    assert!(rt;
        paths(alloc, &volume, "?.DIR;*")?.as_str()
            == "[0,0]A.DIR;1 [0,0]B.DIR;1 [0,0]C.DIR;1 [0,0]F.DIR;1 "
    );
    assert!(rt;
        paths(alloc, &volume, "00?00?.DIR;*")?.as_str()
            == "[0,0]000000.DIR;1 [0,0]001002.DIR;1 [0,0]003004.DIR;1 "
    );
    assert!(rt; paths(alloc, &volume, "[A.D]*.*")?.as_str() == "[A.D]E.DIR;1 ");
    let facts = the(alloc, &volume, "A.DIR")?.facts.ok_or("a directory")?;
    assert!(rt; facts.blocks == 2);
    Ok(())
}

#[test]
fn what_is_not_made(rt: HostRuntime) -> Result<(), Fail> {
    let alloc = rt.alloc();
    let asked = asked()?;
    let twice = make_directories(alloc, volume_of(alloc, 40)?, &asked, &["A", "[A]"], 0, None);
    assert!(rt; is_refused(twice, "[A]", Why::DirectoryThere));
    let nowhere = make_directories(alloc, volume_of(alloc, 40)?, &asked, &["X/A"], 0, None);
    assert!(rt; is_refused(nowhere, "X/A", Why::Path(PathFault::Nothing)));
    let pattern = make_directories(alloc, volume_of(alloc, 40)?, &asked, &["A*/"], 0, None);
    assert!(rt; is_refused(pattern, "A*/", Why::Several));
    let master = make_directories(alloc, volume_of(alloc, 40)?, &asked, &["[0,0]"], 0, None);
    assert!(rt; is_refused(master, "[0,0]", Why::Request(Refusal::Reserved)));
    Ok(())
}

#[test]
fn empty_directories_go(rt: HostRuntime) -> Result<(), Fail> {
    let alloc = rt.alloc();
    let asked = asked()?;
    let volume = done(
        alloc,
        make_directories(alloc, volume_of(alloc, 40)?, &asked, &["A", "A/B"], 0, None),
    )?;
    let volume = done(
        alloc,
        remove_directories(alloc, volume, &asked, &["A/B", "[A]"]),
    )?;
    assert!(rt; paths(alloc, &volume, "A.DIR;*")?.is_empty());
    assert!(rt; paths(alloc, &volume, "#6,1")?.is_empty());
    let volume = done(
        alloc,
        make_directories(alloc, volume, &asked, &["A"], 0, None),
    )?;
    let volume = put(alloc, volume, "[A]", "x.txt", b"")?;
    let full = remove_directories(alloc, volume, &asked, &["A"]);
    assert!(rt; is_refused(full, "[0,0]A.DIR;1", Why::Request(Refusal::NotEmpty)));
    let none = remove_directories(alloc, volume_of(alloc, 40)?, &asked, &["A"]);
    assert!(rt; is_refused(none, "A", Why::Path(PathFault::Nothing)));
    Ok(())
}

#[test]
fn directories_of_a_folder(rt: HostRuntime) -> Result<(), Fail> {
    let alloc = rt.alloc();
    let words = ["A", "A/B", "[1,2]"];
    let volume = done(
        alloc,
        make_directories(alloc, volume_of(alloc, 40)?, &asked()?, &words, 0, None),
    )?;
    for (path, count) in [("[A]", 1), ("[A.*]", 1), ("[1,*]", 1), ("[X]", 0)] {
        let Ok(Path::Within(folder, None)) = parse_path(path.as_bytes()) else {
            return Err(Fail::from("a folder"));
        };
        assert!(rt; find_directories(alloc, &volume, &folder)?.len() == count);
    }
    Ok(())
}
