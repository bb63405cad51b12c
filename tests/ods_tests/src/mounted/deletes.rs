//! Deletes: a file of two headers, directories with a name and without one, and what is refused.
use super::changes::{changed, mounted};
use crate::contiguous::{WORLD, WORLD_DENIED, contiguous_file};
use crate::persons::{DIR, FIRST, MASTER, SECOND, USER, c_dat};
use crate::volumes::{FileHeader, Variant, added, block_of, in_two_headers, run, sample_of};
use ods_alloc::{free_count, number_count};
use ods_base::{Block, FileId, Image, Name, word};
use ods_change::delete;
use ods_look::stat;
use ods_mount::Mounted;
use ods_request::Refusal;
use ods_space::Draft;
use std::alloc::Global;
use std::process::Abort;
use std::test::Fail;

/// The draft of a Delete by a user of the system.
fn deleted(alloc: Global, before: &Mounted, file: FileId) -> Result<Draft, Refusal> {
    let disk = before.disk();
    delete(alloc, &disk, USER, file)
}

/// The sample volume with C.DAT, file 6,1: LBN 22 by its first header, LBN 24 by header 7.
fn two_headers(alloc: Global) -> Result<Image, Fail> {
    in_two_headers(alloc, c_dat(), &[run(22, 1)], &[run(24, 1)])
}

/// The sample volume with a directory, file 6,1 with LBN 22, whose end mark is byte 16; its one entry has this file
/// number, or is empty by 0. All else of it is 5a, and good for a name.
fn directory(alloc: Global, named: u8) -> Result<Image, Fail> {
    let mut attributes = [0; 32];
    attributes[10] = 1;
    attributes[12] = 16;
    let header = FileHeader {
        attributes,
        ..added(6, Name::new([1_600, 0, 0], DIR))
    };
    Variant {
        headers: &[(8, header.mapping(&[run(22, 1)]))],
        bytes: &[(22, 0, named), (22, 1, 0), (22, 4, 0), (22, 5, 0)],
        ..sample_of(40)
    }
    .image(alloc)
}

/// The volume of this image without file 6,1.
fn without_first(alloc: Global, image: Image) -> Result<Mounted, Fail> {
    let before = mounted(alloc, image)?;
    let draft = deleted(alloc, &before, FIRST)?;
    changed(alloc, before, &draft)
}

/// So many blocks and numbers are free.
fn has_free(rt: &impl Abort, volume: &Mounted, blocks: u32, numbers: u32) {
    let disk = volume.disk();
    assert!(rt; free_count(&disk) == blocks);
    assert!(rt; number_count(&disk) == numbers);
}

/// File 6,1 is not there.
fn is_gone(rt: &impl Abort, volume: &Mounted) {
    let disk = volume.disk();
    let left = stat(&disk, FIRST);
    assert!(rt; left.err() == Some(Refusal::NoSuchFile));
}

/// The header has number 0, and keeps its sequence number.
fn has_no_file(rt: &impl Abort, header: &Block) {
    assert!(rt; word(header, 1) == 0 && word(header, 2) == 1);
}

/// The file of two headers is gone, and all that it had is free.
fn is_given_back(rt: &impl Abort, after: &Mounted) -> Result<(), Fail> {
    has_free(rt, after, 18, 11);
    is_gone(rt, after);
    has_no_file(rt, block_of(after.image(), 8)?);
    has_no_file(rt, block_of(after.image(), 9)?);
    Ok(())
}

#[test]
fn a_file_of_two_headers_is_deleted(rt: HostRuntime) -> Result<(), Fail> {
    let alloc = rt.alloc();
    has_free(&rt, &mounted(alloc, two_headers(alloc)?)?, 16, 9);
    is_given_back(&rt, &without_first(alloc, two_headers(alloc)?)?)
}

/// What a Delete of the directory with this entry is answered.
fn answered(alloc: Global, named: u8) -> Result<Option<Refusal>, Fail> {
    let used = mounted(alloc, directory(alloc, named)?)?;
    Ok(deleted(alloc, &used, FIRST).err())
}

#[test]
fn a_directory_is_deleted_without_names(rt: HostRuntime) -> Result<(), Fail> {
    assert!(rt; answered(rt.alloc(), 3)? == Some(Refusal::NotEmpty));
    is_gone(&rt, &without_first(rt.alloc(), directory(rt.alloc(), 0)?)?);
    Ok(())
}

/// What may not be deleted.
fn refuses(rt: &impl Abort, alloc: Global, private: &Mounted) {
    for (file, refusal) in [(MASTER, Refusal::Reserved), (SECOND, Refusal::NoSuchFile)] {
        assert!(rt; deleted(alloc, private, file).err() == Some(refusal));
    }
    let disk = private.disk();
    let refused = delete(alloc, &disk, WORLD, FIRST);
    assert!(rt; refused.err() == Some(Refusal::Denied));
}

#[test]
fn deletes_are_refused(rt: HostRuntime) -> Result<(), Fail> {
    let image = contiguous_file(rt.alloc(), WORLD_DENIED)?;
    refuses(&rt, rt.alloc(), &mounted(rt.alloc(), image)?);
    Ok(())
}
