//! Files and directories that are made on the sample volume, seen by what the changed image shows.
use super::changes::mounted;
use crate::persons::{DIR, FIRST, PROTECTION, USER, a_txt};
use crate::volumes::{block_of, sample_of};
use ods_alloc::FreeCounts;
use ods_base::{Block, FileId, Image, Name, word};
use ods_change::create;
use ods_look::{read, stat};
use ods_mount::Mounted;
use ods_request::{Kind, Refusal, Stamp};
use std::alloc::Global;
use std::process::Abort;
use std::test::Fail;

/// The draft of making a file on the sample volume as version 3 of a name, its ID, and the image then, where it is sound.
fn made(alloc: Global, name: Name, blocks: u32) -> Result<(Mounted, FileId), Fail> {
    let before = mounted(alloc, sample_of(40).image(alloc)?)?;
    let stamp = Stamp::parse(b"01JAN80120000").ok_or("a stamp")?;
    let disk = before.disk();
    let counts = FreeCounts::of(alloc, &disk)?;
    let (made, file) = create(alloc, &disk, &counts, USER, name, 3, blocks, stamp)?;
    let (mut image, _) = before.into_parts();
    made.draft.apply(&mut image);
    Ok((mounted(alloc, image)?, file))
}

/// Whether these bytes stand in a block from an offset on.
fn stand_at(image: &Image, lbn: u32, at: usize, bytes: &[u8]) -> Result<bool, Fail> {
    let behind = block_of(image, lbn)?.bytes().get(at..).ok_or("short")?;
    Ok(behind.starts_with(bytes))
}

/// Header 6, LBN 8, is that of a new file of two blocks.
fn has_header(rt: &impl Abort, image: &Image) -> Result<(), Fail> {
    // Areas, file ID, level, owner, protection, no characteristics and no attributes.
    let area = [23, 46, 6, 0, 1, 0, 1, 1, 1, 1, 0, 0xe0, 0, 0, 0, 0];
    assert!(rt; stand_at(image, 8, 0, &area)?);
    // A.TXT, version 3, revision 1, and the stamp.
    let ident = [64, 6, 0, 0, 0, 0, 212, 128, 3, 0, 1, 0];
    assert!(rt; stand_at(image, 8, 46, &ident)?);
    assert!(rt; stand_at(image, 8, 58, b"01JAN8012000001JAN80120000\0\0\0\0\0\0\0\0")?);
    // One pointer: two blocks from LBN 22 on.
    let map = [0, 0, 0, 0, 0, 0, 1, 3, 2, 204, 0, 1, 22, 0, 0, 0];
    assert!(rt; stand_at(image, 8, 92, &map)?);
    Ok(())
}

/// File 6,1 is shown as a new file of two blocks, and its second block is zeros.
fn is_shown(rt: &impl Abort, after: &Mounted) -> Result<(), Fail> {
    let disk = after.disk();
    let shown = stat(&disk, FIRST)?;
    assert!(rt; shown.owner == USER && shown.protection == PROTECTION);
    let kind = Kind::Plain {
        blocks: 2,
        attributes: [0; 32],
    };
    assert!(rt; shown.kind == kind);
    let second = read(&disk, USER, FIRST, 2)?;
    assert!(rt; second == Block::zeros());
    Ok(())
}

#[test]
fn a_file_is_made(rt: HostRuntime) -> Result<(), Fail> {
    let (after, file) = made(rt.alloc(), a_txt(), 2)?;
    assert!(rt; file == FIRST);
    has_header(&rt, after.image())?;
    is_shown(&rt, &after)
}

/// The first seven words of the attributes in a header.
fn attribute_words(header: &Block) -> [u16; 7] {
    let mut words = [0; 7];
    for k in 0..7 {
        words[k] = word(header, 7 + k);
    }
    words
}

#[test]
fn a_directory_is_made(rt: HostRuntime) -> Result<(), Fail> {
    let sub_dir = Name::new([31_242, 0, 0], DIR);
    let (after, file) = made(rt.alloc(), sub_dir, 1)?;
    let disk = after.disk();
    let shown = stat(&disk, file)?;
    assert!(rt; shown.kind == Kind::Directory { names: 0 });
    // Records of 16 bytes, one block, and the end mark at its beginning.
    let words = attribute_words(block_of(disk.image, 8)?);
    assert!(rt; words == [1, 16, 0, 1, 0, 1, 0]);
    Ok(())
}

/// What a Create of so many blocks is answered.
fn answered(alloc: Global, before: &Mounted, blocks: u32, stamp: Stamp) -> Result<FileId, Refusal> {
    let disk = before.disk();
    let counts = match FreeCounts::of(alloc, &disk) {
        Ok(counts) => counts,
        Err(_) => return Err(Refusal::NoMemory),
    };
    match create(alloc, &disk, &counts, USER, a_txt(), 1, blocks, stamp) {
        Ok(made) => Ok(made.1),
        Err(refusal) => Err(refusal),
    }
}

#[test]
fn files_that_are_not_made(rt: HostRuntime) -> Result<(), Fail> {
    let alloc = rt.alloc();
    let before = mounted(alloc, sample_of(40).image(alloc)?)?;
    let stamp = Stamp::parse(b"01JAN80120000").ok_or("a stamp")?;
    assert!(rt; answered(alloc, &before, 65_536, stamp) == Err(Refusal::BadCount));
    // 18 blocks are free.
    assert!(rt; answered(alloc, &before, 19, stamp) == Err(Refusal::VolumeFull));
    assert!(rt; answered(alloc, &before, 18, stamp) == Ok(FIRST));
    Ok(())
}
