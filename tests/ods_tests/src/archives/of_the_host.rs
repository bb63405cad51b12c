//! Archives that GNU tar of the host has packed, and one for it to unpack, in the folder that a run is in: tests/gnu_tar puts them there, and looks.
use super::blocks::has_path;
use ods_archive::{END, Member, filling, first_twin, head_of, next_member, push_record};
use std::fs;
use std::test::Fail;

/// The time of each member.
const TIME: u64 = 1_000_000_000;

/// 90 bytes.
const DEEP: &[u8; 90] = &[b'x'; 90];

/// Calls this for each member that is packed: its path, whether it is a directory, its bytes.
fn members(rt: HostRuntime, has_slash: bool) -> Result<Vec<(Vec<u8>, bool, Vec<u8>)>, Fail> {
    let alloc = rt.alloc();
    let slash: &[u8] = if has_slash { b"/" } else { b"" };
    let mut members = Vec::new(alloc);
    let mut block = Vec::new(alloc);
    block.resize(512, b'b')?;
    let mut deep = Vec::from_slice(alloc, b"d/")?;
    deep.extend_from_slice(DEEP)?;
    let mut file = deep.clone()?;
    file.push(b'/')?;
    file.extend_from_slice(&[b'y'; 90])?;
    let mut folder = Vec::from_slice(alloc, b"d")?;
    folder.extend_from_slice(slash)?;
    deep.extend_from_slice(slash)?;
    members.push((folder, true, Vec::new(alloc)))?;
    members.push((Vec::from_slice(alloc, b"d/block")?, false, block))?;
    members.push((Vec::from_slice(alloc, b"d/empty")?, false, Vec::new(alloc)))?;
    members.push((
        Vec::from_slice(alloc, b"d/small")?,
        false,
        Vec::from_slice(alloc, b"hello\n")?,
    ))?;
    members.push((deep, true, Vec::new(alloc)))?;
    members.push((file, false, Vec::from_slice(alloc, b"L")?))?;
    Ok(members)
}

/// What GNU tar has packed is read, in each format that is there.
#[test]
fn packed_by_the_host(rt: HostRuntime) -> Result<(), Fail> {
    for name in ["ustar.tar", "pax.tar", "gnu.tar", "oldgnu.tar"] {
        let Ok(all) = fs::read(&rt, name) else {
            continue;
        };
        let mut at = 0;
        for (path, is_directory, bytes) in &members(rt, true)? {
            let Ok(Some(found)) = next_member(&all, at) else {
                unreachable!()
            };
            assert!(rt; has_path(rt, &found, path));
            assert!(rt; matches!(found.kind, ods_archive::Kind::Directory) == *is_directory);
            assert!(rt; found.mtime == Some(TIME));
            assert!(rt; found.bytes == bytes.as_slice());
            at = found.next;
        }
        assert!(rt; matches!(next_member(&all, at), Ok(None)));
        assert!(rt; first_twin(rt.alloc(), &all) == Ok(None));
    }
    Ok(())
}

/// The same members are packed for GNU tar, if a file says so.
#[test]
fn packed_for_the_host(rt: HostRuntime) -> Result<(), Fail> {
    if fs::read(&rt, "pack").is_err() {
        return Ok(());
    }
    let mut records = Vec::new(rt.alloc());
    push_record(&mut records, b"RSX.owner", b"[1,2]")?;
    let mut all = Vec::new(rt.alloc());
    for (path, is_directory, bytes) in &members(rt, false)? {
        let member = Member {
            path,
            is_directory: *is_directory,
            size: bytes.len() as u64,
            mtime: TIME,
            pax: &records,
        };
        let head = head_of(rt.alloc(), &member)?;
        all.extend_from_slice(&head)?;
        all.extend_from_slice(bytes)?;
        all.resize(all.len() + filling(bytes.len() as u64), 0)?;
    }
    all.resize(all.len() + END, 0)?;
    assert!(rt; fs::write(&rt, "packed.tar", all.as_slice()).is_ok());
    Ok(())
}
