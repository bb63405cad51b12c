//! An image saved in a folder in memory, of which each call fails in turn, and each write turns a byte in turn.
use fs_saving::{MemoryFault, MemoryFolder, Unsaved, save};
use ods_base::Image;
use std::alloc::Global;
use std::test::Fail;

const NAME: &str = "disk";

const HIDDEN: &str = ".disk.f11fs-new";

/// What stands behind the volume.
const BEHIND: &[u8] = b"behind the volume";

/// How many calls save an image of three blocks: one makes the file, four write, one syncs, one reads back, and the renaming may fail before and behind.
const CALLS: u32 = 9;

/// The bytes of three blocks, which tell their place.
fn some_bytes(alloc: Global) -> Result<Vec<u8>, Fail> {
    let mut bytes = Vec::with_capacity(alloc, 1_536)?;
    for k in 0..1_536u32 {
        bytes.push((k % 251) as u8)?;
    }
    Ok(bytes)
}

/// All bytes that are saved.
fn new_bytes(alloc: Global) -> Result<Vec<u8>, Fail> {
    let mut bytes = some_bytes(alloc)?;
    bytes.extend_from_slice(BEHIND)?;
    Ok(bytes)
}

/// A folder with an old image and another file.
fn folder_with_old(alloc: Global, failing: u32, turning: u32) -> Result<MemoryFolder, Fail> {
    let mut folder = MemoryFolder::new(alloc, failing, turning);
    folder
        .set(NAME.as_bytes(), b"old")
        .map_err(|_| "no memory")?;
    folder.set(b"other", b"stays").map_err(|_| "no memory")?;
    Ok(folder)
}

/// Whether a name has these bytes.
fn has(folder: &MemoryFolder, name: &[u8], bytes: &[u8]) -> bool {
    match folder.get(name) {
        Some(found) => found == bytes,
        None => false,
    }
}

/// Saves the image in this folder.
fn save_in(
    alloc: Global,
    folder: &mut MemoryFolder,
) -> Result<Result<(), Unsaved<MemoryFault>>, Fail> {
    let image = Image::from_bytes(alloc, &some_bytes(alloc)?).map_err(|_| "an image")?;
    Ok(save(folder, HIDDEN, NAME, &image, BEHIND))
}

#[test]
fn an_image_is_saved_whole(rt: HostRuntime) -> Result<(), Fail> {
    let new = new_bytes(rt.alloc())?;
    let mut folder = folder_with_old(rt.alloc(), 0, 0)?;
    assert!(rt; save_in(rt.alloc(), &mut folder)? == Ok(()));
    assert!(rt; has(&folder, NAME.as_bytes(), &new) && has(&folder, b"other", b"stays"));
    assert!(rt; folder.get(HIDDEN.as_bytes()).is_none() && !folder.has_failed());
    Ok(())
}

#[test]
fn each_call_that_fails_leaves_the_old_bytes_or_the_new(rt: HostRuntime) -> Result<(), Fail> {
    let new = new_bytes(rt.alloc())?;
    for failing in 1..CALLS + 1 {
        let mut folder = folder_with_old(rt.alloc(), failing, 0)?;
        let ended = save_in(rt.alloc(), &mut folder)?;
        let wanted = match failing {
            1 => Unsaved::Make(MemoryFault::Failed),
            2..=6 => Unsaved::Write(MemoryFault::Failed),
            7 => Unsaved::Differs,
            _ => Unsaved::Rename(MemoryFault::Failed),
        };
        assert!(rt; ended == Err(wanted) && folder.has_failed());
        let old: &[u8] = if failing == CALLS { &new } else { b"old" };
        assert!(rt; has(&folder, NAME.as_bytes(), old) && has(&folder, b"other", b"stays"));
        assert!(rt; folder.get(HIDDEN.as_bytes()).is_none());
    }
    let mut folder = folder_with_old(rt.alloc(), CALLS + 1, 0)?;
    assert!(rt; save_in(rt.alloc(), &mut folder)? == Ok(()));
    Ok(())
}

#[test]
fn each_write_that_turns_a_byte_is_seen(rt: HostRuntime) -> Result<(), Fail> {
    for turning in 1..5u32 {
        let mut folder = folder_with_old(rt.alloc(), 0, turning)?;
        assert!(rt; save_in(rt.alloc(), &mut folder)? == Err(Unsaved::Differs));
        assert!(rt; has(&folder, NAME.as_bytes(), b"old") && has(&folder, b"other", b"stays"));
        assert!(rt; folder.get(HIDDEN.as_bytes()).is_none() && folder.has_failed());
    }
    Ok(())
}
