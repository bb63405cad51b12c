//! The bytes of files, on mounted images and on one that is refused, to writers that take all or fail.
use super::changes::mounted;
use crate::persons::c_dat;
use crate::volumes::{FileHeader, Variant, added, run, sample_of};
use ods_base::{Image, WriteFault};
use ods_files::{CopyFault, FileBody, FileFault, Form};
use ods_header::find_home;
use ods_mount::mount;
use ods_shell::{Wanted, contents_of_blocks};
use ods_space::{ChainFault, Disk, Layout};
use std::alloc::Global;
use std::io;
use std::io::Write;
use std::test::Fail;

/// Attributes with this F.RTYP, F.EFBK and F.FFBY.
fn attributes(kind: u8, block: u8, byte: u8) -> [u8; 32] {
    let mut attributes = [0; 32];
    attributes[0] = kind;
    attributes[10] = block;
    attributes[12] = byte;
    attributes
}

/// The sample of 40 blocks with file 6 of these attributes. Its blocks are LBN 30, 25 and 26, each with a letter as first byte, and a `z` as
/// the fourth byte of the second.
fn three_blocks(alloc: Global, attributes: [u8; 32], next: u16) -> Result<Image, Fail> {
    let first = FileHeader {
        attributes,
        ..added(6, c_dat())
    };
    let second = added(7, c_dat()).second();
    Variant {
        headers: &[
            (8, first.before(next).mapping(&[run(30, 1)])),
            (9, second.mapping(&[run(25, 2)])),
        ],
        bytes: &[(30, 0, b'a'), (25, 0, b'b'), (25, 3, b'z'), (26, 0, b'c')],
        ..sample_of(40)
    }
    .image(alloc)
}

/// What free blocks of a sample have, with these bytes at these places.
fn old_but(alloc: Global, len: usize, bytes: &[(usize, u8)]) -> Result<Vec<u8>, Fail> {
    let mut old = vec![in alloc; 0x5au8; len]?;
    for (at, byte) in bytes {
        old[*at] = *byte;
    }
    Ok(old)
}

/// A writer that takes at most so many bytes a call, and none after so many in all.
#[derive(Drop)]
struct Taker {
    bytes: Vec<u8>,
    a_call: usize,
    in_all: usize,
}

impl Write for Taker {
    fn write(&mut self, buf: &[u8]) -> io::Result<usize> {
        let left = self.in_all - self.bytes.len().min(self.in_all);
        let count = buf.len().min(self.a_call).min(left);
        match self.bytes.extend_from_slice(&buf[..count]) {
            Ok(()) => Ok(count),
            Err(_) => Err(io::Error::from(io::ErrorKind::OutOfMemory)),
        }
    }

    fn flush(&mut self) -> io::Result<()> {
        Ok(())
    }
}

/// A writer of at most `a_call` bytes a call and `in_all` bytes.
fn taking(alloc: Global, a_call: usize, in_all: usize) -> Taker {
    Taker {
        bytes: Vec::new(alloc),
        a_call,
        in_all,
    }
}

#[test]
fn bytes_up_to_the_end(rt: HostRuntime) -> Result<(), Fail> {
    let alloc = rt.alloc();
    let letters: &[(usize, u8)] = &[(0, b'a'), (512, b'b'), (515, b'z'), (1024, b'c')];
    // F.EFBK 2 and F.FFBY 3 end before the `z`; 4 and 0 at the end of block 3; 0 is nothing, but where all attributes are zeros.
    for (said, wanted, size) in [
        (attributes(2, 2, 3), &letters[..2], Some(515)),
        (attributes(2, 2, 4), &letters[..3], Some(516)),
        (attributes(0, 4, 0), letters, Some(1536)),
        (attributes(0, 4, 1), letters, None),
        (attributes(0, 200, 0), letters, None),
        (attributes(1, 0, 9), &letters[..0], Some(0)),
        ([0; 32], letters, Some(1536)),
    ] {
        let volume = mounted(alloc, three_blocks(alloc, said, 7)?)?;
        let disk = volume.disk();
        let body = FileBody::open(alloc, &disk, 6)?;
        let mut out = taking(alloc, 100, 10_000);
        let written = body.write_to(Form::Binary, &mut out);
        let read = body.read(alloc, Form::Binary)?;
        assert!(rt; body.size(Form::Binary) == size && body.block_count() == 3);
        assert!(rt; body.has_no_attributes() == (said == [0; 32]));
        match size {
            Some(size) => {
                let bytes = old_but(alloc, size as usize, wanted)?;
                assert!(rt; written == Ok(()) && out.bytes == bytes, "{size}");
                assert!(rt; read == Some(bytes));
            }
            None => {
                assert!(rt; written == Err(CopyFault::EndPastBlocks) && out.bytes.is_empty());
                assert!(rt; read.is_none());
            }
        }
        let mut raw = taking(alloc, 512, 10_000);
        assert!(rt; body.write_to(Form::Raw, &mut raw) == Ok(()));
        assert!(rt; raw.bytes == old_but(alloc, 1536, letters)?);
    }
    Ok(())
}

#[test]
fn writers_that_fail(rt: HostRuntime) -> Result<(), Fail> {
    let alloc = rt.alloc();
    let volume = mounted(alloc, three_blocks(alloc, attributes(1, 2, 3), 7)?)?;
    let disk = volume.disk();
    let body = FileBody::open(alloc, &disk, 6)?;
    for in_all in 0..515 {
        let mut out = taking(alloc, 50, in_all);
        let fault = CopyFault::Write(WriteFault {
            written: in_all as u64,
        });
        assert!(rt; body.write_to(Form::Binary, &mut out) == Err(fault));
        assert!(rt; out.bytes.len() == in_all);
    }
    Ok(())
}

/// A file of 200 blocks goes out in two pieces of 64 KiB at most.
#[test]
fn more_than_a_piece(rt: HostRuntime) -> Result<(), Fail> {
    let alloc = rt.alloc();
    let header = added(6, c_dat()).mapping(&[run(300, 200)]);
    let image = Variant {
        headers: &[(8, header)],
        bytes: &[(300, 0, 1), (427, 511, 2), (428, 0, 3), (499, 511, 4)],
        ..sample_of(512)
    }
    .image(alloc)?;
    let volume = mounted(alloc, image)?;
    let disk = volume.disk();
    let body = FileBody::open(alloc, &disk, 6)?;
    let wanted = old_but(
        alloc,
        102_400,
        &[(0, 1), (65_535, 2), (65_536, 3), (102_399, 4)],
    )?;
    for a_call in [1_000, 65_536, 100_000] {
        let mut out = taking(alloc, a_call, 200_000);
        assert!(rt; body.write_to(Form::Raw, &mut out) == Ok(()) && out.bytes == wanted);
    }
    let mut out = taking(alloc, 65_536, 65_540);
    let fault = CopyFault::Write(WriteFault { written: 65_540 });
    assert!(rt; body.write_to(Form::Raw, &mut out) == Err(fault));
    Ok(())
}

/// INDEXF.SYS, whose first block is LBN 0 or the home block, and whose headers follow the index bitmap.
#[test]
fn the_index_file(rt: HostRuntime) -> Result<(), Fail> {
    let alloc = rt.alloc();
    let volume = mounted(alloc, sample_of(40).image(alloc)?)?;
    let disk = volume.disk();
    let body = FileBody::open(alloc, &disk, 1)?;
    let Some(bytes) = body.read(alloc, Form::Raw)? else {
        return Err("raw bytes".into());
    };
    let lbns = disk.layout.index();
    assert!(rt; bytes.len() == 512 * lbns.len());
    for (k, lbn) in lbns.iter().enumerate() {
        let block = disk.image.block(*lbn);
        assert!(rt; &bytes[512 * k..512 * k + 512] == block.bytes().as_slice());
    }
    Ok(())
}

/// On an image that the mount refuses for another file, a file whose own chain is whole has its bytes.
#[test]
fn of_a_refused_image(rt: HostRuntime) -> Result<(), Fail> {
    let alloc = rt.alloc();
    let image = three_blocks(alloc, attributes(1, 1, 1), 9)?;
    let Err((image, _)) = mount(alloc, image) else {
        return Err("header 9 is not there".into());
    };
    let (_, home) = find_home(&image)?;
    let layout = Layout::read(alloc, &image, home)?;
    let disk = Disk {
        image: &image,
        layout: &layout,
    };
    let master = FileBody::open(alloc, &disk, 4)?;
    assert!(rt; master.size(Form::Binary).is_some());
    let broken = FileBody::open(alloc, &disk, 6).err();
    assert!(rt; broken == Some(FileFault::Chain(ChainFault::BadChain)));
    for number in [0, 7, 8, 60_000] {
        let none = FileBody::open(alloc, &disk, number).err();
        assert!(rt; none == Some(FileFault::NoSuchFile));
    }
    Ok(())
}

/// Blocks that no header of the image names have the bytes that their attributes say, with zeros for one past the image.
#[test]
fn of_blocks_alone(rt: HostRuntime) -> Result<(), Fail> {
    let alloc = rt.alloc();
    let image = three_blocks(alloc, [0; 32], 7)?;
    let mut lbns = Vec::new(alloc);
    lbns.extend_from_slice(&[25, 40, 30])?;
    let got = contents_of_blocks(alloc, &image, lbns, attributes(1, 3, 1), Wanted::Binary)
        .ok()
        .ok_or("contents")?;
    let mut out = taking(alloc, 512, 10_000);
    assert!(rt; got.contents.write_to(&mut out).is_ok() && got.remark.is_none());
    let mut wanted = old_but(alloc, 512, &[(0, b'b'), (3, b'z')])?;
    wanted.extend_from_slice(&[0; 512])?;
    wanted.push(b'a')?;
    assert!(rt; out.bytes == wanted);
    Ok(())
}
