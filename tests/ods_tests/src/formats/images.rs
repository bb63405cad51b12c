//! Images from bytes and devices, and onto them: what no clause says, readers and writers that fail, and that calls succeed.
ghost use Rattle.std.specs.Prelude.{◌≤◌, IfOk};

use ods_base::{Block, Coded, Image, ImageError, NoMemory, word};
use std::alloc::Global;
use std::io;
use std::io::{Read, Write};
use std::process::Abort;
use std::test::Fail;

/// A device of 0x5a bytes, which moves at most `most` of them in a call, and fails at the call numbered `fails_at`, from 1.
#[derive(Drop)]
struct Device {
    left: usize,
    most: usize,
    calls: u32,
    fails_at: u32,
}

impl Device {
    fn next(&mut self, wanted: usize) -> io::Result<usize>
        ensures { IfOk result (λ count. count ≤ wanted) }
    {
        self.calls = self.calls.saturating_add(1);
        if self.calls == self.fails_at {
            return Err(io::Error::from(io::ErrorKind::Interrupted));
        }
        let count = wanted.min(self.most).min(self.left);
        self.left -= count;
        Ok(count)
    }
}

impl Read for Device {
    fn read(&mut self, buf: &mut [u8]) -> io::Result<usize> {
        let count = self.next(buf.len())?;
        for byte in buf[..count].iter_mut() {
            *byte = 0x5a;
        }
        Ok(count)
    }
}

impl Write for Device {
    fn write(&mut self, buf: &[u8]) -> io::Result<usize> {
        self.next(buf.len())
    }

    fn flush(&mut self) -> io::Result<()> {
        Ok(())
    }
}

fn new_device(left: usize, most: usize, fails_at: u32) -> Device {
    Device {
        left,
        most,
        calls: 0,
        fails_at,
    }
}

#[test]
fn images_come_from_bytes(rt: HostRuntime) -> Result<(), Fail> {
    let image = Image::from_bytes(rt.alloc(), &[7; 1024])?;
    assert!(rt; image.len() == 2 && !image.is_empty());
    assert!(rt; word(image.block(1), 255) == 0x0707);
    assert!(rt; image.copy()? == image);
    Ok(())
}

#[test]
fn images_are_cut_and_lengthened(rt: HostRuntime) -> Result<(), Fail> {
    let (image, behind) = Image::from_bytes(rt.alloc(), &[7; 1536])?.cut(rt.alloc(), 1)?;
    assert!(rt; image.len() == 1 && behind.len() == 1024);
    assert!(rt; behind.iter().all(|byte| *byte == 7));
    let image = image.lengthen(3)?;
    assert!(rt; image.len() == 3 && word(image.block(0), 0) == 0x0707);
    assert!(rt; image.block(1).is_zeros() && image.block(2).is_zeros());
    let (_, mut shared) = image.split().map_err(|_| NoMemory)?;
    shared.set_block(2, Block::new([9; 512]));
    let (shared, behind) = shared.cut(rt.alloc(), 2)?;
    assert!(rt; shared.len() == 2 && behind.len() == 512 && behind[0] == 9);
    Ok(())
}

#[test]
fn no_bytes_are_an_empty_image(rt: HostRuntime) -> Result<(), Fail> {
    assert!(rt; Image::from_bytes(rt.alloc(), &[])?.is_empty());
    Ok(())
}

#[test]
fn half_a_block_is_refused(rt: HostRuntime) {
    let fault = Image::from_bytes(rt.alloc(), &[7; 511]).err();
    assert!(rt; fault == Some(ImageError::NotWholeBlocks));
    assert!(rt; ImageError::NotWholeBlocks.code() == 1);
    assert!(rt; ImageError::NotWholeBlocks.name() == "NotWholeBlocks");
    assert!(rt; ImageError::TooBig.code() == 2);
}

/// The image has 200 blocks, each of the bytes of the device.
fn has_its_bytes(rt: &impl Abort, image: &Image) {
    assert!(rt; image.len() == 200);
    for lbn in 0..image.len() {
        assert!(rt; *image.block(lbn) == Block::new([0x5a; 512]), "block {lbn}");
    }
}

#[test]
fn readers_may_give_any_pieces(rt: HostRuntime) -> Result<(), Fail> {
    for most in [1, 511, 513, 65_536, 100_000] {
        let mut reader = new_device(200 * 512, most, 0);
        has_its_bytes(&rt, &Image::read_from(rt.alloc(), &mut reader)?);
    }
    Ok(())
}

#[test]
fn part_of_a_block_is_refused(rt: HostRuntime) {
    let fault = Image::read_from(rt.alloc(), &mut new_device(511, 100, 0)).err();
    assert!(rt; fault == Some(ImageError::NotWholeBlocks));
}

/// A read that failed is the last one, though the device would go on.
#[test]
fn failed_reads_are_not_repeated(rt: HostRuntime) {
    for fails_at in 1..5 {
        let mut reader = new_device(2048, 512, fails_at);
        let fault = Image::read_from(rt.alloc(), &mut reader).err();
        assert!(rt; fault == Some(ImageError::ReadFailed), "at {fails_at}");
        assert!(rt; reader.calls == fails_at, "at {fails_at}");
    }
    assert!(rt; ImageError::ReadFailed.code() == 0);
}

/// A device that gives one block over and over, and how many bytes it gave.
#[derive(Drop)]
struct Endless {
    block: [u8; 512],
    at: usize,
    given: u64,
}

impl Read for Endless {
    fn read(&mut self, buf: &mut [u8]) -> io::Result<usize> {
        let rest = &self.block[self.at.min(512)..];
        let count = buf.len().min(rest.len());
        buf[..count].copy_from_slice(&rest[..count]);
        self.at = (self.at + count) % 512;
        self.given = self.given.saturating_add(count as u64);
        Ok(count)
    }
}

/// Reading ends one byte behind the largest image, or where memory ends.
#[test]
fn a_device_without_an_end_is_too_big(rt: HostRuntime) {
    let mut reader = Endless {
        block: [0x5a; 512],
        at: 0,
        given: 0,
    };
    let fault = Image::read_from(rt.alloc(), &mut reader).err();
    assert!(rt; fault == Some(ImageError::TooBig) || fault == Some(ImageError::NoMemory));
    assert!(rt; reader.given <= 536_870_913);
}

/// An image of 300 blocks of the byte 3.
fn image_of_threes(alloc: Global) -> Result<Image, Fail> {
    let bytes = vec![in alloc; 3; 300 * 512]?;
    Ok(Image::from_bytes(alloc, &bytes)?)
}

#[test]
fn all_is_written(rt: HostRuntime) -> Result<(), Fail> {
    let mut out = Vec::new(rt.alloc());
    image_of_threes(rt.alloc())?.write_to(&mut out)?;
    assert!(rt; out.len() == 300 * 512 && out.iter().all(|byte| *byte == 3));
    Ok(())
}

#[test]
fn writers_may_take_any_pieces(rt: HostRuntime) -> Result<(), Fail> {
    let image = image_of_threes(rt.alloc())?;
    for most in [1000, 65_536, 1_000_000] {
        let mut writer = new_device(300 * 512, most, 0);
        assert!(rt; image.write_to(&mut writer).is_ok(), "in pieces of {most}");
        assert!(rt; writer.left == 0, "in pieces of {most}");
    }
    Ok(())
}

/// The count in a fault is what went out, and after it nothing more does.
#[test]
fn failed_writes_are_counted(rt: HostRuntime) -> Result<(), Fail> {
    let image = image_of_threes(rt.alloc())?;
    for (left, most, fails_at, written) in [
        (1_000_000, 1000, 1, 0),
        (1_000_000, 1000, 3, 2000),
        (1_000_000, 65_536, 3, 131_072),
        (70_000, 65_536, 0, 70_000),
        (0, 10, 0, 0),
    ] {
        let mut writer = new_device(left, most, fails_at);
        let fault = image.write_to(&mut writer).err().ok_or("written")?;
        assert!(rt; fault.written == written, "at {left} {most} {fails_at}");
        assert!(rt;
            left.saturating_sub(writer.left) as u64 == written,
            "at {left} {most} {fails_at}"
        );
    }
    Ok(())
}
