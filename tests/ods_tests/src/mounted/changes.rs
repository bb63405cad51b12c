//! Changes of the sample volume with a contiguous file, seen by what the changed image reads as.
use crate::contiguous::{WORLD, WORLD_DENIED, contiguous_file};
use crate::persons::{
    FIRST, MASTER, PROTECTION, SYSTEM, USER, bitmap, c_dat, letter_a, old_block, other_attributes,
    reserved_id,
};
use crate::volumes::block_of;
use ods_alloc::FreeCounts;
use ods_base::{Block, FileId, Image, Pick, word};
use ods_change::{Drafted, enter, remove, set_user, write};
use ods_look::{look_up, read};
use ods_mount::{Mounted, mount};
use ods_request::Refusal;
use ods_space::Draft;
use std::alloc::Global;
use std::process::Abort;
use std::test::Fail;

/// The image, where it is sound.
pub fn mounted(alloc: Global, image: Image) -> Result<Mounted, Fail> {
    match mount(alloc, image) {
        Ok(mounted) => Ok(mounted),
        Err(refused) => Err(refused.1.into()),
    }
}

/// The image with the changes of a draft, where it is sound.
pub fn changed(alloc: Global, before: Mounted, draft: &Draft) -> Result<Mounted, Fail> {
    let (mut image, _) = before.into_parts();
    draft.apply(&mut image);
    mounted(alloc, image)
}

/// The block of the contiguous file.
fn its_block(volume: &Mounted) -> Result<Block, Fail> {
    let disk = volume.disk();
    Ok(read(&disk, USER, FIRST, 1)?)
}

/// The draft of writing the letter A into it.
fn written(alloc: Global, before: &Mounted) -> Result<Draft, Fail> {
    let disk = before.disk();
    Ok(write(alloc, &disk, USER, FIRST, 1, &letter_a())?)
}

/// The block of the contiguous file is this one.
fn has_block(rt: &impl Abort, volume: &Mounted, wanted: &Block) -> Result<(), Fail> {
    assert!(rt; its_block(volume)? == *wanted);
    Ok(())
}

/// The volume that most of these tests change.
fn volume_before(alloc: Global) -> Result<Mounted, Fail> {
    mounted(alloc, contiguous_file(alloc, PROTECTION)?)
}

/// It with the letter A.
fn after_write(alloc: Global) -> Result<Mounted, Fail> {
    let before = volume_before(alloc)?;
    let draft = written(alloc, &before)?;
    changed(alloc, before, &draft)
}

#[test]
fn a_block_is_written(rt: HostRuntime) -> Result<(), Fail> {
    has_block(&rt, &volume_before(rt.alloc())?, &old_block())?;
    has_block(&rt, &after_write(rt.alloc())?, &letter_a())
}

/// The draft of setting the other attributes of the contiguous file.
fn with_attributes(alloc: Global, before: &Mounted) -> Result<Draft, Fail> {
    let disk = before.disk();
    let attributes = other_attributes();
    Ok(set_user(alloc, &disk, USER, FIRST, attributes)?)
}

/// The volume with the other attributes.
fn after_set_user(alloc: Global) -> Result<Mounted, Fail> {
    let before = volume_before(alloc)?;
    let draft = with_attributes(alloc, &before)?;
    changed(alloc, before, &draft)
}

/// The header has H.UCHA 0o200 and H.SCHA 0, and the other attributes: 2 and zeros.
fn has_attributes(rt: &impl Abort, header: &Block) {
    assert!(rt; header.byte(12) == 0o200);
    assert!(rt; header.byte(13) == 0);
    assert!(rt; header.byte(14) == 2);
    for i in 15..46 {
        assert!(rt; header.byte(i) == 0, "byte {i}");
    }
}

#[test]
fn attributes_are_set(rt: HostRuntime) -> Result<(), Fail> {
    let after = after_set_user(rt.alloc())?;
    has_block(&rt, &after, &old_block())?;
    has_attributes(&rt, block_of(after.image(), 8)?);
    Ok(())
}

/// A user of the system writes a block of a file that the world may not touch: block 22 is changed.
fn system_writes(rt: &impl Abort, alloc: Global, private: &Mounted) -> Result<(), Fail> {
    let disk = private.disk();
    let block = letter_a();
    let draft = write(alloc, &disk, SYSTEM, FIRST, 1, &block)?;
    assert!(rt; disk.image.len() == 40 && *draft.block(disk.image, 22) == block);
    Ok(())
}

/// That user sets its attributes: header 8 is changed.
fn system_sets(rt: &impl Abort, alloc: Global, private: &Mounted) -> Result<(), Fail> {
    let disk = private.disk();
    let draft = set_user(alloc, &disk, SYSTEM, FIRST, other_attributes())?;
    assert!(rt; disk.image.len() == 40 && draft.block(disk.image, 8).byte(14) == 2);
    Ok(())
}

/// And nobody else does.
fn world_is_denied(rt: &impl Abort, alloc: Global, private: &Mounted) {
    let disk = private.disk();
    let refused = set_user(alloc, &disk, WORLD, FIRST, other_attributes());
    assert!(rt; refused.err() == Some(Refusal::Denied));
}

#[test]
fn rights_to_change(rt: HostRuntime) -> Result<(), Fail> {
    let alloc = rt.alloc();
    let private = mounted(alloc, contiguous_file(alloc, WORLD_DENIED)?)?;
    system_writes(&rt, alloc, &private)?;
    system_sets(&rt, alloc, &private)?;
    world_is_denied(&rt, alloc, &private);
    Ok(())
}

/// The draft of removing BITMAP.SYS from the master directory, and the file and version that go.
fn without_bitmap(
    alloc: Global,
    before: &Mounted,
    pick: Pick,
) -> Result<(Draft, FileId, u16), Fail> {
    let disk = before.disk();
    Ok(remove(alloc, &disk, USER, MASTER, bitmap(), pick, None)?)
}

/// The volume without that name, where the file and version that go are those.
fn after_remove(alloc: Global, pick: Pick) -> Result<Mounted, Fail> {
    let before = volume_before(alloc)?;
    let removed = without_bitmap(alloc, &before, pick)?;
    if removed.1 != reserved_id(2) || removed.2 != 1 {
        return Err("another file or version".into());
    }
    changed(alloc, before, &removed.0)
}

#[test]
fn a_name_is_removed(rt: HostRuntime) -> Result<(), Fail> {
    let after = after_remove(rt.alloc(), Pick::Highest)?;
    let disk = after.disk();
    let found = look_up(&disk, USER, MASTER, bitmap(), Pick::Highest, None);
    assert!(rt; found.err() == Some(Refusal::NoSuchName));
    Ok(())
}

/// The draft of entering C.DAT in the master directory, and its version.
fn entered(alloc: Global, before: &Mounted) -> Result<(Drafted, u16), Fail> {
    let disk = before.disk();
    let counts = FreeCounts::of(alloc, &disk)?;
    Ok(enter(
        alloc,
        &disk,
        &counts,
        USER,
        MASTER,
        c_dat(),
        None,
        FIRST,
        None,
    )?)
}

/// F.HIBK, F.EFBK and F.FFBY of the master directory, whose header is LBN 6.
fn end_of_master(image: &Image) -> Result<[u16; 5], Fail> {
    let header = block_of(image, 6)?;
    let mut words = [0; 5];
    for k in 0..5 {
        words[k] = word(header, 9 + k);
    }
    Ok(words)
}

/// The master directory ends so.
fn ends(rt: &impl Abort, volume: &Mounted, wanted: &[u16; 5]) -> Result<(), Fail> {
    assert!(rt; end_of_master(volume.image())? == *wanted);
    Ok(())
}

/// The volume with C.DAT in the master directory, where its version is that.
fn after_enter(alloc: Global, before: Mounted, version: u16) -> Result<Mounted, Fail> {
    let found = entered(alloc, &before)?;
    if found.1 != version {
        return Err("another version".into());
    }
    changed(alloc, before, &found.0.draft)
}

#[test]
fn a_name_is_entered_at_the_mark(rt: HostRuntime) -> Result<(), Fail> {
    let alloc = rt.alloc();
    let after = after_enter(alloc, volume_before(alloc)?, 1)?;
    ends(&rt, &after, &[0, 1, 0, 1, 96])
}

#[test]
fn a_directory_takes_a_block(rt: HostRuntime) -> Result<(), Fail> {
    let mut volume = volume_before(rt.alloc())?;
    // Five names stand there, and a block has room for 32.
    for version in 1..29u16 {
        volume = after_enter(rt.alloc(), volume, version)?;
    }
    ends(&rt, &volume, &[0, 2, 0, 2, 16])
}

#[test]
fn a_name_is_entered_in_an_empty_entry(rt: HostRuntime) -> Result<(), Fail> {
    let alloc = rt.alloc();
    let after = after_enter(alloc, after_remove(alloc, Pick::Lowest)?, 1)?;
    ends(&rt, &after, &[0, 1, 0, 1, 80])?;
    // Entry 1 has the file number of C.DAT.
    assert!(rt; word(block_of(after.image(), 21)?, 8) == 6);
    Ok(())
}
