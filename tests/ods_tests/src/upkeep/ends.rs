//! `truncate`.
use super::{asked, bytes_of, done, is_refused, put, the, truncate_file, volume_of};
use ods_request::Refusal;
use ods_shell::Wanted;
use ods_upkeep::Why;
use std::process::Abort;
use std::test::Fail;

#[test]
fn a_file_ends_earlier(rt: HostRuntime) -> Result<(), Fail> {
    let alloc = rt.alloc();
    let volume = put(alloc, volume_of(alloc, 512)?, "A.DAT", "x", &[200; 1_030])?;
    let volume = done(alloc, truncate_file(alloc, volume, &asked()?, "A.DAT", 513))?;
    let facts = the(alloc, &volume, "A.DAT")?.facts.ok_or("a file")?;
    assert!(rt; facts.blocks == 2 && facts.bytes == 513);
    assert!(rt; facts.attributes[4..14] == [0, 0, 2, 0, 0, 0, 2, 0, 1, 0]);
    assert!(rt;
        bytes_of(alloc, &volume, "A.DAT", Wanted::Binary)?.as_slice() == [200; 513].as_slice()
    );
    let volume = done(alloc, truncate_file(alloc, volume, &asked()?, "#6,1", 0))?;
    let facts = the(alloc, &volume, "A.DAT")?.facts.ok_or("a file")?;
    assert!(rt; facts.blocks == 0 && facts.bytes == 0);
    Ok(())
}

#[test]
fn what_is_not_cut(rt: HostRuntime) -> Result<(), Fail> {
    let alloc = rt.alloc();
    let asked = asked()?;
    let volume = put(alloc, volume_of(alloc, 40)?, "A.DAT", "x", &[200; 500])?;
    let past = truncate_file(alloc, volume, &asked, "A.DAT", 501);
    assert!(rt; is_refused(past, "A.DAT", Why::PastEnd));
    let reserved = truncate_file(alloc, volume_of(alloc, 40)?, &asked, "CORIMG.SYS", 0);
    assert!(rt; is_refused(reserved, "CORIMG.SYS", Why::Request(Refusal::Reserved)));
    let directory = truncate_file(alloc, volume_of(alloc, 40)?, &asked, "000000.DIR", 0);
    assert!(rt; is_refused(directory, "000000.DIR", Why::IsDirectory));
    let several = truncate_file(alloc, volume_of(alloc, 40)?, &asked, "*.SYS", 0);
    assert!(rt; is_refused(several, "*.SYS", Why::Several));
    Ok(())
}
