//! Devices that fail once, at each call in turn, while a sound image is read, answered and written: how the run ends, and what went out before.
use super::check_runs::NoGate;
use crate::volumes::sample_of;
use ods_base::{Image, WriteFault};
use ods_cli::{Options, ServeFault, serve};
use ods_request::Stamp;
use std::alloc::Global;
use std::io;
use std::io::{Read, Write};
use std::process::Abort;
use std::sync::Wait;
use std::test::Fail;
use std::thread::Threads;

/// What a device does at the call at which it fails.
#[derive(Clone, Copy, PartialEq, Eq, Drop)]
enum Failing {
    /// It answers an error.
    Error,
    /// It answers that it took no byte.
    Nothing,
}

/// Bytes that a device gives or takes, at most so many a call; the call of this number, from 1, fails.
#[derive(Drop)]
struct Device {
    bytes: Vec<u8>,
    at: usize,
    most: usize,
    calls: u32,
    fails_at: u32,
    failing: Failing,
}

impl Device {
    /// A device with these bytes to give.
    fn of(bytes: Vec<u8>, most: usize, fails_at: u32) -> Device {
        Device {
            bytes,
            at: 0,
            most,
            calls: 0,
            fails_at,
            failing: Failing::Error,
        }
    }

    /// Whether this call fails.
    fn is_over(&mut self) -> bool {
        self.calls = self.calls.saturating_add(1);
        self.calls == self.fails_at
    }
}

impl Read for Device {
    fn read(&mut self, buf: &mut [u8]) -> io::Result<usize> {
        if self.is_over() {
            return Err(io::Error::from(io::ErrorKind::Other));
        }
        let left = self.bytes.as_slice().get(self.at..).unwrap_or(&[]);
        let count = left.len().min(buf.len()).min(self.most);
        buf[..count].copy_from_slice(&left[..count]);
        self.at += count;
        Ok(count)
    }
}

impl Write for Device {
    fn write(&mut self, buf: &[u8]) -> io::Result<usize> {
        if self.is_over() {
            return match self.failing {
                Failing::Error => Err(io::Error::from(io::ErrorKind::Other)),
                Failing::Nothing => Ok(0),
            };
        }
        let count = buf.len().min(self.most);
        match self.bytes.extend_from_slice(&buf[..count]) {
            Ok(()) => Ok(count),
            Err(_) => Err(io::Error::from(io::ErrorKind::OutOfMemory)),
        }
    }

    fn flush(&mut self) -> io::Result<()> {
        Ok(())
    }
}

/// How a run without a script ends: nothing, or why there is no report.
fn run<I: Read, R: Threads + Wait + Sync>(
    rt: &R,
    alloc: Global,
    image: &mut I,
    replies: &mut Device,
    out: &mut Option<Device>,
) -> Result<Option<ServeFault>, Fail> {
    let stamp = Stamp::parse(b"01JAN90120000").ok_or("a stamp")?;
    let options = Options { limit: 1, stamp };
    Ok(serve(rt, alloc, image, &[], replies, out, options, &NoGate).err())
}

/// A device that takes all.
fn ample(alloc: Global) -> Device {
    Device::of(Vec::new(alloc), 4_096, 0)
}

const REPLIES: &[u8] = b"list 0\nfree 18\nnumbers 11\n";

/// The image comes in pieces of a block. Call 41 finds its end.
#[test]
fn each_read_of_the_image_fails(rt: HostRuntime) -> Result<(), Fail> {
    let image = sample_of(40).image_bytes(rt.alloc())?;
    for call in 1..=42 {
        let mut reader = Device::of(image.clone()?, 512, call);
        let mut replies = ample(rt.alloc());
        let mut out = Some(ample(rt.alloc()));
        let ended = run(&rt, rt.alloc(), &mut reader, &mut replies, &mut out)?;
        let written = out.ok_or("a writer")?;
        if call == 42 {
            assert!(rt; ended.is_none() && reader.calls == 41);
            assert!(rt; replies.bytes.as_slice() == REPLIES && written.bytes == image);
        } else {
            assert!(rt; ended == Some(ServeFault::Read), "at call {call}");
            assert!(rt; reader.calls == call, "at call {call}");
            assert!(rt; replies.calls == 0 && written.calls == 0, "at call {call}");
        }
    }
    Ok(())
}

/// What goes out of an image by pieces of 8 bytes, the call of this number of which fails.
fn written_until<R: Threads + Wait + Sync>(
    rt: &R,
    image: &[u8],
    call: u32,
    failing: Failing,
    alloc: Global,
) -> Result<(Option<ServeFault>, Device), Fail> {
    let mut replies = ample(alloc);
    let mut taker = Device::of(Vec::new(alloc), 8, call);
    taker.failing = failing;
    let mut out = Some(taker);
    let mut reader = image;
    let ended = run(rt, alloc, &mut reader, &mut replies, &mut out)?;
    if replies.bytes.as_slice() != REPLIES {
        return Err("other replies".into());
    }
    Ok((ended, out.ok_or("a writer")?))
}

/// Whether what went out until this call failed are the first bytes of the image, and the fault counts them.
fn has_first_bytes(image: &[u8], call: u32, ended: Option<WriteFault>, taken: &Device) -> bool {
    let written = 8 * (call as u64 - 1);
    ended == Some(WriteFault { written })
        && taken.calls == call
        && taken.bytes.len() as u64 == written
        && image.starts_with(&taken.bytes)
}

/// Each of these pieces fails in turn, of the 2,560 that 40 blocks are: the even ones take no byte, and the odd ones end by an error.
fn each_piece_fails(rt: &impl Abort, alloc: Global, first: u32, last: u32) -> Result<(), Fail> {
    let bytes = sample_of(40).image_bytes(alloc)?;
    let image = Image::from_bytes(alloc, &bytes)?;
    for call in first..=last {
        let mut taken = Device::of(Vec::new(alloc), 8, call);
        taken.failing = if call % 2 == 0 {
            Failing::Nothing
        } else {
            Failing::Error
        };
        let ended = image.write_to(&mut taken).err();
        assert!(rt;
            has_first_bytes(&bytes, call, ended, &taken),
            "at call {call}"
        );
    }
    Ok(())
}

// A piece costs what those before it do, so four tests of like cost share them.

#[test]
fn each_piece_to_1280_fails(rt: HostRuntime) -> Result<(), Fail> {
    each_piece_fails(&rt, rt.alloc(), 1, 1_280)
}

#[test]
fn each_piece_to_1810_fails(rt: HostRuntime) -> Result<(), Fail> {
    each_piece_fails(&rt, rt.alloc(), 1_281, 1_810)
}

#[test]
fn each_piece_to_2217_fails(rt: HostRuntime) -> Result<(), Fail> {
    each_piece_fails(&rt, rt.alloc(), 1_811, 2_217)
}

#[test]
fn each_piece_to_2560_fails(rt: HostRuntime) -> Result<(), Fail> {
    each_piece_fails(&rt, rt.alloc(), 2_218, 2_560)
}

/// What a run leaves where a piece of the image fails: of the 2,560 calls some are tried.
#[test]
fn each_write_of_the_image_fails(rt: HostRuntime) -> Result<(), Fail> {
    let image = sample_of(40).image_bytes(rt.alloc())?;
    for call in (1..=2_560u32).filter(|call| *call <= 64 || call % 97 == 0 || 2_545 <= *call) {
        let failing = if call % 2 == 0 {
            Failing::Nothing
        } else {
            Failing::Error
        };
        let (ended, taken) = written_until(&rt, &image, call, failing, rt.alloc())?;
        let ended = match ended {
            Some(ServeFault::WriteOut(fault)) => Some(fault),
            _ => None,
        };
        assert!(rt;
            has_first_bytes(&image, call, ended, &taken),
            "at call {call}"
        );
    }
    let (ended, taken) = written_until(&rt, &image, 2_561, Failing::Error, rt.alloc())?;
    assert!(rt; ended.is_none() && taken.calls == 2_560 && taken.bytes == image);
    Ok(())
}

/// Where a write of the replies fails, by an error or since no byte is taken, the image is not written at all.
#[test]
fn each_write_of_the_replies_fails(rt: HostRuntime) -> Result<(), Fail> {
    let image = sample_of(40).image_bytes(rt.alloc())?;
    for failing in [Failing::Error, Failing::Nothing] {
        // 26 bytes, one a call.
        for call in 1..=26u32 {
            let mut replies = Device::of(Vec::new(rt.alloc()), 1, call);
            replies.failing = failing;
            let mut out = Some(ample(rt.alloc()));
            let ended = run(
                &rt,
                rt.alloc(),
                &mut image.as_slice(),
                &mut replies,
                &mut out,
            )?;
            assert!(rt; ended == Some(ServeFault::Write), "at call {call}");
            assert!(rt; replies.bytes.len() as u32 == call - 1, "at call {call}");
            assert!(rt; REPLIES.starts_with(&replies.bytes), "at call {call}");
            assert!(rt;
                matches!(&out, Some(writer) if writer.calls == 0),
                "at call {call}"
            );
        }
    }
    Ok(())
}
