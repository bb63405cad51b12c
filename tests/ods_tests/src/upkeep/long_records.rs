//! A record that is longer than its file says, the file's path by its number, and an object of three texts.
use super::{asked, filing_for, put, the, volume_of};
use ods_paths::{Folder, Versions, no_steps};
use ods_request::Request;
use ods_shell::{FileNames, find_open, long_record, push_path_of, trio_object};
use std::test::Fail;

#[test]
fn a_record_is_longer_than_the_file_says(rt: HostRuntime) -> Result<(), Fail> {
    let alloc = rt.alloc();
    let volume = put(alloc, volume_of(alloc, 40)?, "A.TXT", "x", b"one\nlonger\n")?;
    let facts = the(alloc, &volume, "A.TXT")?.facts.ok_or("a file")?;
    let number = facts.file.number;
    assert!(rt; long_record(alloc, &volume.disk(), number)?.is_none());
    let mut attributes = facts.attributes;
    attributes[2] = 5;
    let mut filing = filing_for(alloc, volume, asked()?.user);
    let file = facts.file;
    let set = filing.request(&Request::SetUser { file, attributes });
    assert!(rt; set.is_ok());
    let volume = filing.into_mounted();
    let disk = volume.disk();
    let found = long_record(alloc, &disk, number)?.ok_or("a long record")?;
    assert!(rt; found.at == 6 && found.size == 6);
    let master = Folder {
        steps: no_steps(),
        below: false,
    };
    let all = find_open(alloc, &disk, &master, &None, Versions::Every, &[])?;
    let mut text = String::new(alloc);
    for line in &all.lines {
        if line.entry.file.number == number {
            push_path_of(&mut text, &all.directories, line)?;
        }
    }
    assert!(rt; text.as_str() == "[0,0]A.TXT;1");
    let names = FileNames::of(alloc, &disk)?.ok_or("a master directory")?;
    let path = names.path(alloc, number)?.ok_or("a path")?;
    assert!(rt; path.as_str() == "[0,0]A.TXT;1");
    assert!(rt; names.path(alloc, number + 1)?.is_none());
    let master = names.path(alloc, 4)?.ok_or("its own name")?;
    assert!(rt; master.as_str() == "[0,0]000000.DIR;1");
    Ok(())
}

#[test]
fn an_object_has_three_texts(rt: HostRuntime) -> Result<(), Fail> {
    let text = trio_object(rt.alloc(), "a", "1", "b", "2", "c", "3")?;
    assert!(rt; text.as_str() == "{\"a\":\"1\",\"b\":\"2\",\"c\":\"3\"}\n");
    Ok(())
}
