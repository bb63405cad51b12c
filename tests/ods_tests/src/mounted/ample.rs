//! Mounts and lists with ample memory succeed, at sizes that take more of it than the samples do.
use super::changes::mounted;
use super::check_runs::replies;
use super::mounts::mounts;
use crate::persons::{DIR, USER, a_txt, b_txt, indexf, old_block, reserved_id};
use crate::volumes::{FileHeader, Variant, added, directory_attributes, run, sample_of};
use ods_base::{Block, FileId, Image, Listed, Name, set_word};
use ods_look::list;
use ods_mount::Mounted;
use std::alloc::{AllocError, Global};
use std::process::Abort;
use std::test::Fail;

/// The directories that are added: files 6 to 45.
const DIRECTORIES: u16 = 40;

/// The entries of A.TXT;1, whose file number is put in, and of B.TXT;1, which names file 3,3.
const A_ENTRY: [u8; 16] = [0, 0, 1, 0, 0, 0, 0x40, 6, 0, 0, 0, 0, 0xd4, 0x80, 1, 0];

const B_ENTRY: [u8; 16] = [3, 0, 3, 0, 0, 0, 0x80, 0x0c, 0, 0, 0, 0, 0xd4, 0x80, 1, 0];

/// The ID of an added directory.
fn directory_id(number: u16) -> FileId {
    FileId {
        number,
        sequence: 1,
    }
}

/// The header of directory A.DIR of this number, which maps one block, and the LBN where it stands: headers 1 to 16 follow the
/// index bitmap, and header 17 is at LBN 23.
fn directory_header(number: u16) -> (u32, Block) {
    let end = if number % 2 == 0 { 32 } else { 16 };
    let header = FileHeader {
        attributes: directory_attributes(1, 1, end),
        ..added(number, Name::new([1_600, 0, 0], DIR))
    };
    let lbn = number as u32 + if number <= 16 { 2 } else { 6 };
    (lbn, header.mapping(&[run(100 + number as u32, 1)]))
}

/// The block of that directory: A.TXT;1 is the directory itself, and B.TXT;1, where the number is even, BADBLK.SYS. Behind the
/// entries are old bytes.
fn directory_block(number: u16) -> Block {
    let mut block = old_block();
    block.set_bytes(0, &A_ENTRY);
    set_word(&mut block, 0, number);
    if number % 2 == 0 {
        block.set_bytes(16, &B_ENTRY);
    }
    block
}

/// The volume of 4,200 blocks with room for 64 files, and 40 directories.
fn with_directories(alloc: Global) -> Result<Image, Fail> {
    let index = added(1, indexf()).mapping(&[run(0, 19), run(23, 48)]);
    let mut headers = [(3, index); 41];
    for k in 0..DIRECTORIES {
        headers[k as usize + 1] = directory_header(6 + k);
    }
    let mut image = Variant {
        most_files: 64,
        headers: &headers,
        ..sample_of(4_200)
    }
    .image(alloc)?;
    put_blocks(&mut image)?;
    Ok(image)
}

/// Puts the blocks of the directories in.
fn put_blocks(image: &mut Image) -> Result<(), Fail> {
    for k in 0..DIRECTORIES {
        let lbn = 106 + k as u32;
        if image.len() <= lbn {
            return Err("no such block".into());
        }
        image.set_block(lbn, directory_block(6 + k));
    }
    Ok(())
}

/// The lines of that directory.
fn directory_lines(alloc: Global, number: u16) -> Result<Vec<Listed>, AllocError> {
    let mut lines = Vec::new(alloc);
    lines.push(Listed {
        name: a_txt(),
        version: 1,
        file: directory_id(number),
    })?;
    if number % 2 == 0 {
        lines.push(Listed {
            name: b_txt(),
            version: 1,
            file: reserved_id(3),
        })?;
    }
    Ok(lines)
}

/// 48 blocks are headers, 40 are directories, and 45 of 64 numbers are in use.
#[test]
fn directories_are_mounted(rt: HostRuntime) -> Result<(), Fail> {
    let image = with_directories(rt.alloc())?;
    let mut bytes = Vec::with_capacity(rt.alloc(), 512 * 4_200)?;
    image.write_to(&mut bytes)?;
    mounts(&rt, rt.alloc(), image, Ok((4_089, 19)));
    replies(&rt, rt.alloc(), &bytes, true, "free 4089\nnumbers 19\n")
}

/// The directory of this number has its lines.
fn is_listed(rt: &impl Abort, alloc: Global, volume: &Mounted, number: u16) -> Result<(), Fail> {
    let dir = directory_id(number);
    let disk = volume.disk();
    let lines = list(alloc, &disk, USER, dir)?;
    let wanted = directory_lines(alloc, number)?;
    assert!(rt; lines.names() == wanted.as_slice(), "directory {number}");
    Ok(())
}

#[test]
fn directories_are_listed(rt: HostRuntime) -> Result<(), Fail> {
    let volume = mounted(rt.alloc(), with_directories(rt.alloc())?)?;
    for k in 0..DIRECTORIES {
        is_listed(&rt, rt.alloc(), &volume, 6 + k)?;
    }
    Ok(())
}

/// The image has these bytes, block by block.
fn has_bytes(rt: &impl Abort, image: &Image, bytes: &[u8]) {
    assert!(rt; 512 * image.len() as usize == bytes.len());
    for lbn in 0..image.len() {
        let at = 512 * lbn as usize;
        assert!(rt;
            bytes.get(at..at + 512) == Some(image.block(lbn).bytes().as_slice()),
            "block {lbn}"
        );
    }
}

/// 5,000 blocks, no two of which next to one another have the same bytes.
#[test]
fn many_blocks_are_read(rt: HostRuntime) -> Result<(), Fail> {
    let mut bytes = Vec::with_capacity(rt.alloc(), 512 * 5_000)?;
    for at in 0..512 * 5_000u32 {
        bytes.push((at % 251) as u8)?;
    }
    has_bytes(&rt, &Image::from_bytes(rt.alloc(), &bytes)?, &bytes);
    Ok(())
}
